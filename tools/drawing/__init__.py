"""How tools/draw draws what `solve` wrote."""
