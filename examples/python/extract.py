#!/usr/bin/env python3
"""Prints the title, the headings and the links of pages: extract.py PAGE.html .."""
import sys

import dom_query


def main() -> None:
    for path in sys.argv[1:]:
        with open(path, "rb") as file, dom_query.parse(file.read()) as page:
            print(f"{path}: {' '.join(page.select_texts('title')).strip()}")
            for heading in page.select("h1, h2, h3"):
                print(f"  {heading.name} {heading.formatted_text}")
            texts, addresses = page.select_texts("a[href]"), page.select_attrs("a[href]", "href")
            for text, address in zip(texts, addresses):
                print(f"  {' '.join(text.split())} -> {address}")


if __name__ == "__main__":
    main()
