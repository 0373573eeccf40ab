"""The vectors that all codecs can be held against, and what makes and reads CAR files apart from the library."""

import os
import sys

HERE = os.path.dirname(os.path.abspath(__file__))
sys.path.append(os.path.join(HERE, "../../../conformance"))

import cars
import cidtexts
import dagjson
import dagpb
import forms
from grammar import SOUND
from judge import VARIANTS
from vectors import block_of, load, subjects

__all__ = ["SOUND", "VARIANTS", "block_of", "cars", "cidtexts", "dagjson", "dagpb", "forms", "load", "subjects"]
