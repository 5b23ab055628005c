"""What the other programs of the bench run: commands of the shell's tools, and statements of
databases. All print the result's rows in ascending order as CSV; longs are ordered as numbers and
texts by their bytes. In a command {t}, {customers} and {orders} stand for the inputs' files."""

SHELL = {
    "sort": {"sort": "sort -t, -k1,1n -k2,2 {t}"},
    "filter": {"awk, sort": "awk -F, '$1 % 10 == 0' {t} | sort -t, -k1,1n -k2,2"},
    "words": {
        "sort, uniq, awk": "sort {t} | uniq -c | awk '{{print $2 \",\" $1}}'",
        "awk, sort": "awk '{{n[$0]++}} END {{for (w in n) print w \",\" n[w]}}' {t}"
                     " | sort -t, -k1,1"},
    "orders": {
        "awk, sort": "awk -F, 'NR == FNR {{c[$1] = $2; next}}"
                     " $2 in c {{k = c[$2]; s[k] += $3; n[k]++}}"
                     " END {{for (k in n) printf \"%s,%.0f,%d\\n\", k, s[k], n[k]}}'"
                     " {customers} {orders} | sort -t, -k1,1"},
}

TABLES = {
    "sort": {"t": [("k", "long"), ("s", "text")]},
    "filter": {"t": [("k", "long"), ("s", "text")]},
    "words": {"t": [("w", "text")]},
    "orders": {"customers": [("id", "long"), ("country", "text")],
               "orders": [("id", "long"), ("customer", "long"), ("amount", "long")]},
}

SELECT = {
    "sort": "select k, s from t order by k, s",
    "filter": "select k, s from t where k % 10 = 0 order by k, s",
    "words": "select w, count(*) from t group by w order by w",
    "orders": "select country, sum(amount), count(*) from customers join orders"
              " on customers.id = orders.customer group by country order by country",
}

TYPES = {"sqlite": {"long": "integer", "text": "text"},
         "postgresql": {"long": "bigint", "text": 'text collate "C"'},
         "clickhouse": {"long": "Int64", "text": "String"}}


def columns(fields, types):
    return ", ".join(f"{name} {types[kind]}" for name, kind in fields)


def sqlite_script(case, files):
    """What sqlite3 reads from its standard input."""
    out = [".bail on", ".mode csv", '.separator , "\\n"']
    for table, fields in TABLES[case].items():
        out.append(f"create table {table}({columns(fields, TYPES['sqlite'])});")
        out.append(f".import {files[table]} {table}")
    return "\n".join([*out, SELECT[case] + ";", ""])


def postgres_script(case, files):
    """What psql reads from its standard input: temporary tables, gone with the session."""
    out = []
    for table, fields in TABLES[case].items():
        out.append(f"create temporary table {table}({columns(fields, TYPES['postgresql'])});")
        out.append(f"\\copy {table} from '{files[table]}' (format csv)")
    return "\n".join([*out, f"\\copy ({SELECT[case]}) to stdout (format csv)", ""])


def clickhouse_query(case, files):
    """What `clickhouse local` is asked: the files stand as tables in a `with`."""
    tables = []
    for table, fields in TABLES[case].items():
        form = columns(fields, TYPES["clickhouse"])
        tables.append(f"{table} as (select * from file('{files[table]}', 'CSV', '{form}'))")
    return (f"with {', '.join(tables)} {SELECT[case]} format CustomSeparated settings "
            "format_custom_escaping_rule = 'Raw', format_custom_field_delimiter = ','")
