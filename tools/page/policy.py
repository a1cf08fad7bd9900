"""The content policy names the page's one script and its one style by their SHA-256, so that no other runs or applies."""

import base64
import hashlib
import re

from modules import Wrong


def hash_of(page, tag):
    """The word by which a content policy names the text of the page's one `<script>`, or of its one `<style>`."""
    texts = re.findall(rf"<{tag}>(.*?)</{tag}>", page, re.S)
    if len(texts) != 1:
        raise Wrong(f"the page has <{tag}> {len(texts)} times, and not once")
    return f"'sha256-{base64.b64encode(hashlib.sha256(texts[0].encode()).digest()).decode()}'"
