# Shares, their uncertainty and a test of independence, from three perturbed tables.
#
#     Rscript analysis.R CLIENT PORT PEOPLE PTABLE PNG
#
# An analyst has the tables, and what the office tells of the perturbation: its variance. That the
# microdata are at hand is for this page.

words <- commandArgs(trailingOnly = TRUE)
source(words[1])
people <- read.csv(words[3], colClasses = c(AREA = "character"))
ptable <- read.csv(words[4])

# The variance of what is added to a count of 4 and more, which is that of its row.
variance <- mean(ptable$pvalue[ptable$pcv == 100]^2)
cat(sprintf("variance of what is added: %.3f\n", variance))

session <- tb_connect(as.integer(words[2]))

# 1. The share of the old in each area, and how sure it is.
ages <- tb_table(session, "AREA by AGE3", totals = TRUE)
old <- ages$count[ages$AGE3 == "old" & ages$AREA != "Total"]
all <- ages$count[ages$AGE3 == "Total" & ages$AREA != "Total"]
share <- old / all
# Of a ratio of two counts to which something of this variance is added.
deviation <- sqrt(variance * (1 + share^2)) / all
truth <- tapply(people$AGE >= 65, factor(people$AREA, levels(ages$AREA)[seq_along(all)]), mean)
inside <- abs(share - truth) <= 2 * deviation
cat(sprintf(
  "shares of the old: %d areas, %d hidden; %d of %d within two deviations of the true share\n",
  length(share), sum(is.na(share)), sum(inside, na.rm = TRUE), sum(!is.na(inside))
))
cat(sprintf("rank correlation with the true shares: %.3f\n", cor(share, truth,
  method = "spearman", use = "complete.obs"
)))

# 2. Whether age and tenure are independent: the statistic by shown and by true counts.
cells <- tb_table(session, "AGE10 by TENURE")
shown <- xtabs(count ~ AGE10 + TENURE, as.data.frame(cells), addNA = FALSE)
group <- factor(pmin(people$AGE %/% 10, 9), 0:9)
true <- table(group, factor(people$TENURE, levels(cells$TENURE)))
statistic <- function(counts) unname(suppressWarnings(chisq.test(counts))$statistic)
cat(sprintf(
  "independence of age and tenure: statistic %.1f by shown counts, %.1f by true ones\n",
  statistic(shown), statistic(true)
))

# 3. The ratio of the sexes by age.
sexes <- tb_table(session, "AGE10 by SEX")
women <- sexes$count[sexes$SEX == "f"]
men <- sexes$count[sexes$SEX == "m"]
by_sex <- table(group, people$SEX)
true_ratio <- by_sex[, "f"] / by_sex[, "m"]
cat(sprintf(
  "women for each man by age: largest difference from the true ratio %.3f\n",
  max(abs(women / men - true_ratio), na.rm = TRUE)
))
tb_close(session)

png(words[5], 1040, 340, type = "cairo")
par(mfrow = c(1, 3), mar = c(4, 4, 2, 1))
span <- range(truth, share - 2 * deviation, share + 2 * deviation, na.rm = TRUE)
plot(truth, share,
  xlim = span, ylim = span, pch = 20, xlab = "true share", ylab = "share by shown counts",
  main = "aged 65 and over, by area"
)
segments(truth, share - 2 * deviation, truth, share + 2 * deviation, col = "grey50")
abline(0, 1, lty = 2)
plot(all, share - truth,
  log = "x", pch = 20, xlab = "persons in the area (shown)", ylab = "share - true share",
  main = "the larger, the surer"
)
sizes <- sort(all)
lines(sizes, 2 * sqrt(variance * (1 + mean(share, na.rm = TRUE)^2)) / sizes, lty = 2)
lines(sizes, -2 * sqrt(variance * (1 + mean(share, na.rm = TRUE)^2)) / sizes, lty = 2)
matplot(cbind(women / men, true_ratio),
  type = "b", pch = c(20, 1), lty = 1:2, col = c("black", "grey50"), xaxt = "n",
  xlab = "age", ylab = "women for each man", main = "by shown (black) and true counts"
)
axis(1, seq_along(women), levels(sexes$AGE10))
invisible(dev.off())
