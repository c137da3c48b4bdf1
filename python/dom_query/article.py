"""Articles of pages."""

from __future__ import annotations

from typing import TYPE_CHECKING, Any

from .names import foreign_name

if TYPE_CHECKING:
    from .document import Document


class Article:
    """The article of a page: what a reader came for. `Document.article` finds it.

    `title`, `byline` (the author), `published` (the date, as it is written), `language`, `site`, `description` and `image` (an
    address, as it is written) are what the page says of it; None for what it doesn't say. `sure` is False where it may be no
    article, as for most home pages. `document` is a document of its own, with the article's nodes.
    """

    __slots__ = ("title", "byline", "published", "language", "site", "description", "image", "sure", "document")

    def __init__(self, document: Document, sure: bool, fields: list[str | None]) -> None:
        self.title, self.byline, self.published, self.language, self.site, self.description, self.image = fields
        self.sure = sure
        self.document = document

    @property
    def html(self) -> str:
        """The article as HTML."""
        return self.document.html

    @property
    def markdown(self) -> str:
        """The article as Markdown that readers show as the page: CommonMark with GitHub's tables."""
        return self.document.markdown

    @property
    def text(self) -> str:
        """The article as text, with blocks on lines of their own."""
        return self.document.formatted_text

    def __str__(self) -> str:
        return self.markdown

    def __repr__(self) -> str:
        return f"<Article {(self.title or '')[:40]!r}>" if self.title else "<Article>"

    if not TYPE_CHECKING:

        def __getattr__(self, name: str) -> Any:
            raise foreign_name("Article", name)
