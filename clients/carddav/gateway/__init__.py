"""A CardDAV gateway to Tosculai: its books as address books of phones and mail programs."""
