"""Pages, compared with what they list, cite, count and link to, and what is printed for them from
the sources."""
