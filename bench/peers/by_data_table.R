# One table by data.table: counts and sums of record keys by group, margins by `cube`, and the perturbation
# table joined by row and cell key.
#
#     Rscript by_data_table.R FOLDER THRESHOLD OUT
#
# Prints the seconds of loading, of the table from the persons, and of the table from counts that are kept.
suppressPackageStartupMessages(library(data.table))

now <- function() as.numeric(proc.time()["elapsed"])

count <- function(people) people[, .(n = .N, key = sum(record_key)), by = .(AREA, SEX)]

perturbed <- function(counts, ptable, codes, threshold) {
  cells <- cube(counts, .(n = sum(n), key = sum(key)), by = c("AREA", "SEX"))
  for (name in c("AREA", "SEX")) {
    set(cells, which(is.na(cells[[name]])), name, "Total")
  }
  places <- CJ(AREA = c(codes$AREA, "Total"), SEX = c(codes$SEX, "Total"), sorted = FALSE)
  cells <- cells[places, on = c("AREA", "SEX")]
  cells[is.na(n), `:=`(n = 0L, key = 0L)]
  cells[, `:=`(pcv = fifelse(n > 750L, 501L + (n - 1L) %% 250L, n), ckey = key %% 256L)]
  cells[ptable, on = c("pcv", "ckey"), pvalue := i.pvalue]
  cells[, shown := n + fifelse(is.na(pvalue), 0L, pvalue)]
  cells[, .(AREA, SEX, count = fifelse(shown < threshold, "c", as.character(shown)))]
}

words <- commandArgs(trailingOnly = TRUE)
threshold <- as.integer(words[2])
file_of <- function(name) file.path(words[1], paste0(name, ".csv"))
began <- now()
classes <- fread(file_of("classes"), colClasses = "character")
codes <- split(classes$code, factor(classes$variable, unique(classes$variable)))
ptable <- fread(file_of("ptable"))
people <- fread(file_of("people"), colClasses = list(character = c("AREA", "AGE", "SEX", "TENURE")))
loaded <- now()
counts <- count(people)
table <- perturbed(counts, ptable, codes, threshold)
cold <- now()
again <- perturbed(counts, ptable, codes, threshold)
kept <- now()
stopifnot(identical(table, again))
fwrite(table, words[3], quote = FALSE)
cat(loaded - began, cold - loaded, kept - cold, "\n")
