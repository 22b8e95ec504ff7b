"""The queries of bench/queries as somebody would write them with pandas, over a table `sales` of a day, a shop and an amount.

usage: python3 bench/pandas_answers.py FILE QUERY [ANSWER]

Reads the rows of a CSV file, answers the query of a name, and writes the answer as CSV to ANSWER, /dev/null if it is not given.
It prints the processor's seconds that the answer took, the writing of it included. The rows have no nulls, and shops are a
category, by which pandas groups fastest. Status 3: pandas has no words for the query.

Where rows of one day stand together, as peers do in SQL, what the last of them has is told for all of them.
"""
import resource
import sys

import pandas


def spent():
    """Seconds of the processor so far. Under a limit of them, `time.process_time` counts in steps."""
    used = resource.getrusage(resource.RUSAGE_SELF)
    return used.ru_utime + used.ru_stime


def by_day(sales):
    return sales.sort_values("day", kind="stable")


def last_of_peers(values, *keys):
    return values.groupby(list(keys), observed=True).transform("last")


def running_sum(sales):
    """The sum so far of each shop, by day, in the order of the table."""
    rows = by_day(sales)
    sums = rows.groupby("shop", observed=True).amount.cumsum()
    return last_of_peers(sums, rows.shop, rows.day).reindex(sales.index)


def ranks(sales):
    amounts = sales.groupby("shop", observed=True).amount
    methods = dict(rank="min", dense_rank="dense", row_number="first")
    ranked = {name: amounts.rank(method=method, ascending=False) for name, method in methods.items()}
    return pandas.DataFrame(ranked).astype(int)


def around(sales, rows, answer, **how):
    """What a moving window of so many rows by day has, in the order of the table."""
    moving = by_day(sales).amount.rolling(rows, min_periods=1, **how)
    return getattr(moving, answer)().astype(int).reindex(sales.index).to_frame(answer)


def days_around(sales):
    days = sales.groupby("day").amount.sum()
    every = days.reindex(range(days.index.min(), days.index.max() + 1), fill_value=0)
    return sales.day.map(every.rolling(21, center=True, min_periods=1).sum().astype(int)).to_frame("sum")


def groups_without_ties(sales):
    days = sales.groupby("day").amount.sum()
    others = days.rolling(21, center=True, min_periods=1).sum().astype(int) - days
    return (sales.day.map(others) + sales.amount).to_frame("sum")


def all_others(sales):
    sums = sales.groupby("shop", observed=True).amount.transform("sum")
    return sales[["amount"]].assign(sum=(sums - sales.amount))


def places(sales):
    rows = by_day(sales)
    shops = rows.groupby("shop", observed=True)
    place, size = shops.cumcount(), shops.amount.transform("size")
    small, larger = size // 4, size % 4
    behind = larger * (small + 1)
    tile = (place // (small + 1)).where(place < behind, larger + (place - behind) // small.clip(lower=1)) + 1
    third = rows.shop.map(rows[place == 2].set_index("shop").amount).astype("Int64")
    seen = last_of_peers(place, rows.shop, rows.day)
    told = {"lag": shops.amount.shift(1), "lead": shops.amount.shift(-1)}
    told = {name: values.astype("Int64") for name, values in told.items()}
    return pandas.DataFrame(told | {"ntile": tile, "nth_value": third.where(seen >= 2)}).reindex(sales.index)


def groups(sales):
    return sales.groupby("shop", observed=True).amount.agg(["size", "sum", "min", "max"]).reset_index()


def finest_set(sales):
    return sales.groupby(["shop", "day"], observed=True).amount.sum().reset_index()


def rollup(sales):
    finest = finest_set(sales)
    shops = finest.groupby("shop", observed=True).amount.sum().reset_index()
    return pandas.concat([finest, shops, finest[["amount"]].sum().to_frame().T]).astype({"day": "Int64"})


def two_windows(sales):
    rows = by_day(sales)
    most = rows.groupby("shop", observed=True).amount.rolling(11, min_periods=1).max().droplevel(0)
    return pandas.DataFrame({"sum": running_sum(sales), "max": most.reindex(sales.index).astype(int)})


def window_over_groups(sales):
    days = sales.groupby("day").amount.sum().reset_index()
    return days.assign(rank=days.amount.rank(method="min", ascending=False).astype(int))


def derived_table(sales):
    place = sales.groupby("shop", observed=True).amount.rank(method="min")
    return sales[place <= 100].groupby("shop", observed=True).size().reset_index()


def filtered_count(sales):
    rows = by_day(sales)
    counts = (rows.amount > 500).cumsum()
    return last_of_peers(counts, rows.day).reindex(sales.index).to_frame("count")


ANSWERS = {
    "count": lambda sales: pandas.DataFrame({"count": [len(sales)]}),
    "running sum": lambda sales: sales[["day"]].assign(sum=running_sum(sales)),
    "ranks": ranks,
    "moving sum": lambda sales: around(sales, 101, "sum"),
    "moving maximum of 2,001 rows": lambda sales: around(sales, 2001, "max", center=True),
    "sum of ten days around": days_around,
    "groups without ties": groups_without_ties,
    "all others of the shop": all_others,
    "lag, lead, ntile, nth_value": places,
    "groups": groups,
    "a rollup": rollup,
    "its finest set": finest_set,
    "sort": lambda sales: sales.sort_values(["shop", "amount"], ascending=[True, False], kind="stable"),
    "filter": lambda sales: sales.loc[sales.amount > 990, ["day", "amount"]],
    "top 10": lambda sales: sales.nlargest(10, "amount", keep="first")[["day", "amount"]],
    "two windows of one order": two_windows,
    "a window over groups": window_over_groups,
    "a derived table": derived_table,
    "a count with FILTER": filtered_count,
}


def main():
    path, name, answer = (sys.argv[1:] + ["/dev/null"])[:3]
    if name not in ANSWERS:
        sys.exit(3)
    sales = pandas.read_csv(path, dtype={"shop": "category"})
    start = spent()
    ANSWERS[name](sales).to_csv(answer, index=False)
    print(spent() - start)


if __name__ == "__main__":
    main()
