"""How an export is written: its tables, columns, cells and formulas, up to arrays of its rows."""
