\name{tb_ptable}
\alias{tb_ptable}
\title{Convert a perturbation table of the package ptable}
\description{
Makes the program's perturbation table, with the columns \code{pcv}, \code{ckey} and \code{pvalue},
from one with the columns \code{i}, \code{j}, \code{p_int_lb} and \code{p_int_ub}.
}
\usage{
tb_ptable(table, keys = 256, file = NULL)
}
\arguments{
\item{table}{What \code{create_cnt_ptable} of the package \code{ptable} returns, or a data frame
with these columns; others are passed over.}
\item{keys}{The key range, 256 or 4096, as the classification states it.}
\item{file}{Where to write the table as CSV, if anywhere.}
}
\details{
A count i becomes j where the uniform number of its cell is in the interval from \code{p_int_lb} to
\code{p_int_ub}. Here that number is taken to be the middle of the cell key's own interval,
(k + 0.5) / K, so each cell key has one pvalue, and j comes up for a share of the cell keys that
differs from the interval's length by at most 1 / K. The largest count of the table serves all
larger ones.
}
\value{
A data frame with one row for each of 750 counts and each cell key; invisibly where it was written.
The attribute \code{"rows"} is a data frame of what the key range does to each count: its mean
perturbation in the table (\code{mean}) and by the cell keys (\code{mean_by_keys}), and by how much
the share of some j differs most (\code{largest_difference}).
}
\examples{
# Each count from 1 on becomes one less, itself, or one more.
table <- data.frame(
  i = c(0, 1, 1, 1), j = c(0, 0, 1, 2),
  p_int_lb = c(0, 0, 0.25, 0.75), p_int_ub = c(1, 0.25, 0.75, 1)
)
made <- tb_ptable(table, keys = 256)
head(made)
attr(made, "rows")
}
