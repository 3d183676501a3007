"""Counts the words of documents with scikit-learn: vectorize.py IMAGE FILE.."""
import sys
from pathlib import Path
from typing import List

from sklearn.feature_extraction.text import CountVectorizer

from kumquatsieve import Segmenter

image, *paths = sys.argv[1:]
segmenter = Segmenter(image)
WANTED = {"名詞", "動詞", "形容詞"}


def terms(document: str) -> List[str]:
    """Returns the base forms of the content words of a document with any number of lines."""
    return [word.base_or_surface for word in segmenter(document) if word.pos in WANTED]


vectorizer = CountVectorizer(analyzer=terms)
counts = vectorizer.fit_transform(Path(path).read_text(encoding="utf-8") for path in paths)
for path, row in zip(paths, counts.toarray()):
    print(path, dict(zip(vectorizer.get_feature_names_out(), map(int, row))))
