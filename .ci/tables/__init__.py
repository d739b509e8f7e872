"""The tables of `.ci/calls`: each file has `cases`, which puts off the cases of one subject."""
