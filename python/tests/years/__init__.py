"""Tests of evp years: projects, results, stopped runs, several processes, and a cluster on this machine."""
