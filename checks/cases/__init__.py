"""Texts in and texts out: tables of rows by topic, each with what the built program has to write."""

from . import answers, certificates, documents, edits, limits, parts, reports, words

TOPICS = [reports, limits, words, certificates, answers, documents, edits, parts]
