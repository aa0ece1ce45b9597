"""Tables in a database of Python's sqlite3: written, compared with their definitions, and read."""

import re

from .records import LIMITS
from .tables import TABLES, tables_of

# words of rules that a desk's tables do not have and that no column shows
OTHER_RULES = re.compile(r"\b(CHECK|COLLATE|GENERATED|AUTOINCREMENT|WITHOUT)\b", re.IGNORECASE)
QUOTED = re.compile("'[^']*'")
MAY_BE_UNIQUE = {"CM_T_ID"}  # with SQL's word UNIQUE or without it; a new desk is without it


def present(conn):
    """Returns the names of tables and views, in capitals: SQL compares them without case."""
    found = conn.execute("SELECT upper(name) FROM sqlite_schema WHERE type IN ('table', 'view')")
    return {name for name, in found}


def write(conn, rows, schema):
    """Writes the rows of a desk, and creates its missing tables. Other tables stay as they are."""
    conn.execute("PRAGMA foreign_keys = OFF")
    conn.execute("BEGIN")
    there = present(conn)
    for table in tables_of(schema):
        if table.name not in there:
            conn.execute(table.sql())
        conn.execute(f"DELETE FROM {table.name}")
        marks = ", ".join("?" * len(table.columns))
        conn.executemany(f"INSERT INTO {table.name} VALUES ({marks})", rows[table.name])
    conn.execute("COMMIT")
    conn.execute("PRAGMA foreign_keys = ON")


def is_defined(conn, table):
    """Returns whether a table exists with the columns, key and unique columns of a desk's.

    Foreign keys are not compared: the form of the rows tests them."""
    made = conn.execute("SELECT sql FROM sqlite_schema WHERE type = 'table' AND name = ?",
                        (table.name,)).fetchone()
    if made is None or OTHER_RULES.search(QUOTED.sub("", made[0])):
        return False
    strict = conn.execute("SELECT strict FROM pragma_table_list WHERE schema = 'main' AND name = ?",
                          (table.name,)).fetchone()
    columns = conn.execute('SELECT name, upper(type), "notnull", dflt_value, pk'
                           " FROM pragma_table_xinfo(?)", (table.name,)).fetchall()
    unique = conn.execute("SELECT c.name FROM pragma_index_list(?) AS i, pragma_index_info(i.name)"
                          " AS c WHERE i.origin = 'u'", (table.name,))
    places = {name: place for place, name in enumerate(table.key, 1)}
    wanted = [(column.name, column.type, int(column.mark != "?"), None, places.get(column.name, 0))
              for column in table.columns]
    owed = {column.name for column in table.columns if column.mark == "!"}
    return (strict == (1,) and columns == wanted
            and owed <= {name for name, in unique} <= owed | MAY_BE_UNIQUE)


def schema_of(conn):
    """Returns the schema of a database, or None if it lacks tables or has one of a later schema."""
    if not is_defined(conn, TABLES["DESK"]):
        return None
    desks = conn.execute("SELECT D_ID, D_SCHEMA FROM DESK").fetchall()
    if len(desks) != 1 or desks[0][0] != 1 or desks[0][1] not in LIMITS:
        return None
    schema, there = desks[0][1], present(conn)
    own = tables_of(schema)
    later = set(TABLES) - {table.name for table in own}
    return schema if not later & there and all(is_defined(conn, table) for table in own) else None


def read(conn, schema):
    """Returns the rows of each table by key, or None if a word is no UTF-8."""
    rows, conn.text_factory = {}, bytes
    try:
        for table in tables_of(schema):
            found = conn.execute(f"SELECT * FROM {table.name} ORDER BY {', '.join(table.key)}")
            rows[table.name] = [
                tuple(value.decode() if isinstance(value, bytes) else value for value in row)
                for row in found]
        return rows
    except UnicodeDecodeError:
        return None
    finally:
        conn.text_factory = str
