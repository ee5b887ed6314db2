"""A series of years: one sheet for each year and region, all reports, and the tables and the page made of them."""
