"""Segments a column of a table with pandas: column.py IMAGE TABLE.csv COLUMN"""
import sys

import pandas

from kumquatsieve import Segmenter

image, path, name = sys.argv[1:]
segmenter = Segmenter(image)
frame = pandas.read_csv(path)
# A missing value is no text, so it is left out. Texts may have several lines.
texts = frame[name].dropna()
frame.loc[texts.index, "words"] = list(segmenter.wakati_lines(texts))
print(frame.to_csv(index=False), end="")
