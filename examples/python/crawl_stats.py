#!/usr/bin/env python3
"""Counts elements, words and links of many pages, in as many processes as there are processors: crawl_stats.py PAGE.html .."""
import multiprocessing
import sys

import dom_query


def stats(path: str) -> tuple[str, int, int, int]:
    with open(path, "rb") as file, dom_query.parse(file.read()) as page:
        for node in page.select("script, style, template"):
            node.remove()
        return path, len(page.select("*")), len(page.text.split()), len(page.select("a[href]"))


def main() -> None:
    # Each process starts afresh: a forked one may not use a library in which another thread was at work.
    with multiprocessing.get_context("spawn").Pool() as pool:
        for path, elements, words, links in pool.imap(stats, sys.argv[1:], chunksize=8):
            print(f"{elements:7} elements {words:7} words {links:5} links  {path}")


if __name__ == "__main__":
    main()
