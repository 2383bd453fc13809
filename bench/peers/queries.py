"""The table in SQL, which SQLite and PostgreSQL read alike: AREA by SEX with totals, perturbed."""

# The files, with the names and types of their columns.
FILES = {
    "classes": [("variable", "text"), ("code", "text"), ("label", "text")],
    "ptable": [("pcv", "integer"), ("ckey", "integer"), ("pvalue", "integer")],
    "people": [
        ("person", "integer"),
        ("record_key", "integer"),
        ("area", "text"),
        ("age", "text"),
        ("sex", "text"),
        ("tenure", "text"),
    ],
}
COUNTS = "select area, sex, count(*) as n, sum(record_key) as key from people group by area, sex"
# Each place, in the order of the categories and with `Total` last; its cells, of which a total has those of
# all categories; the row of its count and its cell key.
_REST = """, areas as (
    select code, row_number() over () as place from classes where variable = 'AREA'
    union all select 'Total', 1000000
), sexes as (
    select code, row_number() over () as place from classes where variable = 'SEX'
    union all select 'Total', 1000000
), sums as (
    select area, sex, n, key from cells
    union all select area, 'Total', sum(n), sum(key) from cells group by area
    union all select 'Total', sex, sum(n), sum(key) from cells group by sex
    union all select 'Total', 'Total', sum(n), sum(key) from cells
), places as (
    select areas.code as area, sexes.code as sex, areas.place as first, sexes.place as second,
        coalesce(n, 0) as n, coalesce(key, 0) as key
    from areas cross join sexes
    left join sums on sums.area = areas.code and sums.sex = sexes.code
), shown as (
    select area, sex, first, second, n + coalesce(pvalue, 0) as v
    from places left join ptable
    on pcv = case when n > 750 then 501 + (n - 1) % 250 else n end and ckey = key % 256
)
select area, sex, case when v < {threshold} then 'c' else cast(v as text) end
from shown order by first, second"""
TABLE = f"with cells as ({COUNTS})" + _REST
KEPT_TABLE = "with cells as (select area, sex, n, key from counts)" + _REST
