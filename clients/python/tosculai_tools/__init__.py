"""What the commands `tosculai` and `follow` are made of, and copies in a folder."""
