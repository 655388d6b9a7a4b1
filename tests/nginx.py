"""The configuration of an nginx that runs in a folder of its own, in the foreground."""

import time

from program import PATIENCE

MAIN = """\
daemon off;
pid nginx.pid;
error_log stderr;
events { worker_connections 64; }
http {
    access_log off;
    client_body_temp_path body;
    proxy_temp_path proxy;
    fastcgi_temp_path fastcgi;
    uwsgi_temp_path uwsgi;
    scgi_temp_path scgi;
"""


def configuration(http):
    """The configuration with these lines within `http`."""
    return f"{MAIN}{http}}}\n"


def once_it_listens(ask):
    """What `ask` returns. It is asked again while nobody listens at its port."""
    until = time.monotonic() + PATIENCE
    while True:
        try:
            return ask()
        except ConnectionRefusedError:
            if time.monotonic() > until:
                raise
            time.sleep(0.05)
