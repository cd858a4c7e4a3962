"""Fetches a URL by libmx.so.0, and prints its body: get.py URL"""
import ctypes
import select
import sys


class How(ctypes.Structure):
    _fields_ = [(name, ctypes.c_uint32) for name in ("flags", "timeout_ms", "max_redirects", "reserved")]


class Message(ctypes.Structure):
    _fields_ = [(name, ctypes.c_uint32) for name in ("handle", "ticket", "code", "left")]


mx = ctypes.CDLL("libmx.so.0")
mx.mx_multi_timeout.restype = ctypes.c_int64
mx.mx_outcome_body.restype = ctypes.c_uint64
multi, outcome, ticket, refused, running, message = ctypes.c_void_p(), ctypes.c_void_p(), *(ctypes.c_uint32() for _ in range(3)), Message()
size, url = ctypes.c_size_t, sys.argv[1].encode()
assert mx.mx_multi_open(1024, 4, ctypes.byref(multi)) == 0
code = mx.mx_multi_add(multi, 1, b"GET", size(3), url, size(len(url)), b"", size(0), b"", size(0), ctypes.byref(How(0, 30000, 10, 0)),
                       ctypes.byref(ticket), ctypes.byref(refused))
if code:
    sys.exit(f"refused with {refused.value}")
poll = select.poll()
poll.register(mx.mx_multi_fd(multi), select.POLLIN)
mx.mx_multi_perform(multi, ctypes.byref(running))
while mx.mx_multi_info_read(multi, ctypes.byref(message), ctypes.byref(outcome)):
    poll.poll(mx.mx_multi_timeout(multi))
    mx.mx_multi_perform(multi, ctypes.byref(running))
if message.code:
    sys.exit(f"ended with {message.code}")
room, got = ctypes.create_string_buffer(65536), 0
while many := mx.mx_outcome_body(outcome, ctypes.c_uint64(got), room, size(len(room))):
    sys.stdout.buffer.write(room.raw[:many])
    got += many
mx.mx_outcome_close(outcome)
mx.mx_multi_close(multi)
