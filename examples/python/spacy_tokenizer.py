"""A tokenizer for spaCy, with parts of speech and lemmas: spacy_tokenizer.py IMAGE TEXT"""
import sys
from typing import List

import spacy
from spacy.tokens import Doc

from kumquatsieve import Segmenter


class Tokenizer:
    def __init__(self, nlp: spacy.Language, image: str) -> None:
        self.vocab, self.segmenter = nlp.vocab, Segmenter(image)

    def __call__(self, text: str) -> Doc:
        words = self.segmenter(text)
        ends: List[int] = [word.start for word in words[1:]] + [len(text)]
        spaces = [text[word.end : end].startswith(" ") for word, end in zip(words, ends)]
        tags, lemmas = [word.pos or "" for word in words], [word.base_or_surface for word in words]
        return Doc(self.vocab, [word.surface for word in words], spaces, tags=tags, lemmas=lemmas)


nlp = spacy.blank("ja", config={"nlp": {"tokenizer": {"@tokenizers": "spacy.Tokenizer.v1"}}})
nlp.tokenizer = Tokenizer(nlp, sys.argv[1])
print([(token.text, token.tag_, token.lemma_) for token in nlp(sys.argv[2])])
