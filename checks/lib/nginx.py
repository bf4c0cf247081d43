# SPDX-License-Identifier: Apache-2.0 OR MIT
"""nginx with the configuration of deploy/nginx.conf, in front of a server of a check's own.

Needs the Debian packages nginx-light and openssl.
"""

import contextlib
import signal
import socket
import subprocess
import time

from .checking import expect
from .places import TOP
from .server import free_port

# What a server's configuration needs around it, in a folder of its own.
AROUND = """
user root;
worker_processes 4;
daemon off;
pid {folder}/nginx.pid;
error_log {folder}/error.log;
events {{ worker_connections 512; }}
http {{
    access_log off;
    # Clients of this check say which address is theirs.
    set_real_ip_from 127.0.0.1;
    real_ip_header X-Real-IP;
    client_body_temp_path {folder}/body;
    proxy_temp_path {folder}/proxy;
    include {folder}/server.conf;
}}
"""
NAMES = "subjectAltName=DNS:review.example.org,IP:127.0.0.1"


class Nginx:
    """A run of nginx, at a port; whoever trusts the certificate in the file `certificate` trusts it."""

    def __init__(self, folder, port):
        self.port, self.certificate = port, f"{folder}/cert.pem"
        self.process = subprocess.Popen(["nginx", "-c", f"{folder}/nginx.conf", "-p", folder],
                                        stderr=subprocess.DEVNULL)  # fmt: skip

    def reload(self):
        """Has it read its configuration again: other processes take new connections, the old ones end theirs."""
        self.process.send_signal(signal.SIGHUP)

    def stop(self):
        self.process.terminate()
        self.process.wait()


def configuration(folder, upstream, port, is_closed):
    """deploy/nginx.conf with the addresses, the certificate and its key of this run, and if registration is closed
    with the lines that close it."""
    with open(TOP / "deploy/nginx.conf", encoding="utf-8") as file:
        text = file.read()
    for old, new in (
        ("server 127.0.0.1:8080;", f"server 127.0.0.1:{upstream};"),
        ("listen 443 ssl;", f"listen 127.0.0.1:{port} ssl;"),
        ("listen [::]:443 ssl;", f"listen [::1]:{port} ssl;"),
        ("/etc/ssl/certs/review.example.org.pem", f"{folder}/cert.pem"),
        ("/etc/ssl/private/review.example.org.key", f"{folder}/key.pem"),
    ):
        expect(text.count(old) == 1, f"deploy/nginx.conf has no {old}")
        text = text.replace(old, new)
    expect(text.count("#- ") == 5, "deploy/nginx.conf has no lines that close registration")
    return text.replace("#- ", "") if is_closed else text


@contextlib.contextmanager
def nginx_before(upstream, folder, is_closed=False):
    """nginx in front of the server at a port, with a certificate of its own, from when it listens."""
    subprocess.run(
        ["openssl", "req", "-x509", "-newkey", "rsa:2048", "-nodes", "-days", "1", "-subj", "/CN=review.example.org",
         "-addext", NAMES, "-keyout", f"{folder}/key.pem", "-out", f"{folder}/cert.pem"],
        check=True, capture_output=True)  # fmt: skip
    port = free_port()
    with open(f"{folder}/server.conf", "w", encoding="utf-8") as file:
        file.write(configuration(folder, upstream, port, is_closed))
    with open(f"{folder}/nginx.conf", "w", encoding="utf-8") as file:
        file.write(AROUND.format(folder=folder))
    nginx = Nginx(folder, port)
    try:
        for _ in range(100):
            with contextlib.suppress(OSError):
                socket.create_connection(("127.0.0.1", port)).close()
                break
            time.sleep(0.1)
        yield nginx
    finally:
        nginx.stop()
