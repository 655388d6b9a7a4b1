"""A read-only LDAP directory of an office's books."""
