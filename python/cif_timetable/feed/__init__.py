"""The program cif-feed: from the published feed to today's files, every night."""
