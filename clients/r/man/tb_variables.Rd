\name{tb_variables}
\alias{tb_variables}
\alias{tb_codes}
\title{Ask what may be asked}
\description{
The variables and recodes of a server, and the codes and labels of one. A server of an earlier
version tells none of it, which is signalled as \code{tb_cannot_describe}.
}
\usage{
tb_variables(session)
tb_codes(session, name)
}
\arguments{
\item{session}{What \code{\link{tb_connect}} returned.}
\item{name}{The name of a variable or a recode. One that is neither is refused with the word
\code{UnknownName}.}
}
\value{
\code{tb_variables} returns a data frame with a row for each variable and then each recode: its
\code{name}, its \code{kind} (\code{"variable"}, or \code{"recode of V"}), and how many
\code{categories}, or groups, it has. \code{tb_codes} returns one in the schema's order: for a
variable the \code{code} and the \code{label} of each category, for a recode the \code{group} of
each \code{code} of its variable.
}
