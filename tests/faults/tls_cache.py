"""Runs the example of a cache over TLS.

usage: tls_cache.py CACHE.PY --tls IDENTITY FILE --listen ADDRESS

IDENTITY is a file with a certificate for localhost, by which routers are known, too, and its key.
"""
import functools
import gc
import runpy
import ssl
import sys

import rtr_wire

gc.disable()  # a connection that ended leaves no cycles: TLS has much memory
example, _, identity = sys.argv[1:4]
del sys.argv[1:4]
context = ssl.create_default_context(ssl.Purpose.CLIENT_AUTH, cafile=identity)
context.load_cert_chain(identity)
context.verify_mode = ssl.CERT_REQUIRED
rtr_wire.Server.serve = functools.partialmethod(rtr_wire.Server.serve, ssl=context)
runpy.run_path(example, run_name="__main__")
