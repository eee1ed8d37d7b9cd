//go:build cgo && linux && !(amd64 || arm64)

/* The calls of rtr.h, where no archive fits. */
#include "../../prebuilt/portable/rtr_wire.c"
