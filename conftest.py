"""For pytest: a project that has this clone in one of its folders collects none of its tests."""
import os

TOP = os.path.dirname(os.path.realpath(__file__))
collect_ignore_glob = [] if os.path.realpath(os.getcwd()).startswith(TOP) else ["*"]
