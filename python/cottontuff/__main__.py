"""python3 -m cottontuff"""
import sys

from .cli import main

sys.exit(main())
