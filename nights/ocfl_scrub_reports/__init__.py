"""What reads the reports and the nights of ocfl-scrub: questions, statements, the status, mail."""
