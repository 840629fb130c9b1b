"""Tests of the tools that build the pages, and check pages and the subjects of commits."""
