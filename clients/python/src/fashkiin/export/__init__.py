"""The store for other databases: its users, authorizations, grants, tables and rows."""
