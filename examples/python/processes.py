"""Segments the lines of standard input in processes: processes.py IMAGE [fork|spawn]"""
import multiprocessing
import sys

from kumquatsieve import Segmenter

if __name__ == "__main__":
    image, *start = sys.argv[1:]
    context = multiprocessing.get_context(*start)
    # A forked process has the dictionary already. Another one maps the file, so that all processes
    # share its memory.
    with context.Pool(4) as pool:
        for words in pool.imap(Segmenter(image).wakati, sys.stdin, chunksize=1000):
            print(*words)
