"""A service behind a proxy, and between two: `examples/nginx.conf`, as it stands but for ports, paths and names."""

import base64
import socket
import ssl
import subprocess
from contextlib import suppress
from pathlib import Path

from serving import talk
from serving.talk import MOST, BackEnd, Service, body, check, free_port, head_of, read_message, tenant, wait_for

EXAMPLE = Path(__file__).resolve().parent.parent.parent / "examples/nginx.conf"
# Whom the example's back end and this machine's certificate are of.
THERE, HERE = "traces.example.com", "localhost"
# What stands round the example, which is for a folder whose files nginx puts into its block `http`.
ROUND = """daemon off; master_process off; pid {folder}/pid; error_log stderr; events {{}}
http {{
    access_log off; client_body_temp_path {folder}/body; proxy_temp_path {folder}/proxy;
    fastcgi_temp_path {folder}/f; uwsgi_temp_path {folder}/u; scgi_temp_path {folder}/s;
    upstream there {{ server 127.0.0.1:{there}; }}
    {example}
}}
"""
# By these a tenant might say that it is another one.
NAMES = ("X-Scope-OrgID: bank\r\n", "x-scope-orgid: bank\r\nX-SCOPE-ORGID: bank\r\n", "X_Scope_OrgID: bank\r\n",
         "Connection: X-Scope-OrgID\r\n")


class Proxy:
    """A proxy in front of a service, with these settings."""

    def __init__(self, folder, settings, to, *words, **more):
        self.port = free_port()
        file = Path(folder, "proxy.conf")
        file.write_text(settings.format(folder=folder, port=self.port, to=to, **more))
        words = [word.format(folder=folder, port=self.port) for word in words]
        self.run = subprocess.Popen([*words, str(file)], stdout=subprocess.DEVNULL, stderr=subprocess.DEVNULL)

    def __enter__(self):
        def is_up():
            try:
                socket.create_connection(("127.0.0.1", self.port), timeout=MOST).close()
                return True
            except ConnectionRefusedError:
                return self.run.poll() is not None

        wait_for(is_up, "the proxy listens")
        return self

    def __exit__(self, *_):
        self.run.kill()
        self.run.wait()


class SecureEnd(BackEnd):
    """A back end by TLS, with this certificate."""

    def __init__(self, certificate):
        super().__init__()
        self.context = ssl.SSLContext(ssl.PROTOCOL_TLS_SERVER)
        self.context.load_cert_chain(f"{certificate}.pem", f"{certificate}.key")

    def serve(self, peer):
        # who doesn't trust it breaks off
        with suppress(OSError):
            super().serve(self.context.wrap_socket(peer, server_side=True))


def certified(path, host):
    """Makes a certificate of this host's, which itself alone has signed."""
    subprocess.run(["openssl", "req", "-x509", "-newkey", "rsa:2048", "-nodes", "-keyout", f"{path}.key",
                    "-out", f"{path}.pem", "-days", "2", "-subj", f"/CN={host}", "-addext", f"subjectAltName=DNS:{host}"],
                   capture_output=True, check=True)


def example_of(folder, service, towards):
    """The example's text, with a folder's files, a port of the proxy's that `Proxy` chooses, and the name of the back
    end as one that has an address here."""
    text = EXAMPLE.read_text().replace("{", "{{").replace("}", "}}")
    for there, here in (("listen 443", "listen 127.0.0.1:{port}"), ("/etc/nginx/collector", f"{folder}/front"),
                        ("/etc/nginx/tenants", f"{folder}/tenants"), ("127.0.0.1:4318", f"127.0.0.1:{service.port}"),
                        ("127.0.0.1:4401", f"127.0.0.1:{towards}"),
                        ("/etc/ssl/certs/ca-certificates.crt", f"{folder}/trusted.pem"),
                        (f"https://{THERE}/", "https://there/"),
                        ("proxy_ssl_server_name on;", f"proxy_ssl_server_name on; proxy_ssl_name {THERE};")):
        check(f"the example has {there}", there in text, True)
        text = text.replace(there, here)
    return ROUND.replace("{example}", text)


def posted(folder, proxy, name, more=""):
    """The status of a post by TLS with this tenant's password, or with none."""
    context = ssl.create_default_context(cafile=f"{folder}/front.pem")
    if name:
        word = base64.b64encode(f"{name}:of-{name}".encode()).decode()
        more += f"Authorization: Basic {word}\r\n"
    text = body(1, 1)
    head = head_of("bank", len(text), more + "Connection: close\r\n").replace(b"X-Scope-OrgID: bank\r\n", b"", 1)
    with socket.create_connection(("127.0.0.1", proxy.port), timeout=MOST) as peer:
        with context.wrap_socket(peer, server_hostname=HERE) as line:
            line.sendall(head + text)
            return int(read_message(line.recv).split(b" ")[1])


def hashed(name):
    """A line of the file of passwords."""
    run = subprocess.run(["openssl", "passwd", "-apr1", f"of-{name}"], capture_output=True, check=True, text=True)
    return f"{name}:{run.stdout}"


def between_nginx(folder):
    """By the example who has a tenant's password is that tenant, whatever its fields say, and a back end gets posts if
    its certificate is to be trusted, and nothing else."""
    certified(f"{folder}/front", HERE)
    for which in ("trusted", "another"):
        certified(f"{folder}/{which}", THERE)
    Path(folder, "tenants").write_text(hashed("shop") + hashed("bank"))
    for which, counts in (("trusted", {"exported": 5}), ("another", {"retry_exhausted": 5})):
        towards = BackEnd()
        # No retry comes so soon.
        once = tenant("shop", towards, consumers=5) + "max_elapsed_time_ms = 1\n"
        with SecureEnd(f"{folder}/{which}") as there, BackEnd() as bank, Service(
                folder, [once, tenant("bank", bank)]) as service:
            towards.listener.close()
            example = example_of(folder, service, towards.port)
            with Proxy(folder, example, None, "nginx", "-c", there=there.port) as proxy:
                check("without a password", posted(folder, proxy, ""), 401)
                check("with one", posted(folder, proxy, "shop"), 200)
                check("as another one", {posted(folder, proxy, "shop", more) for more in NAMES}, {200})
                wait_for(lambda: "active=0" in (line := service.report("shop")) and "queued=0" in line
                         and "undecided=0" in line, "all was tried")
                ends = talk.line_of("shop", accepted=5, **counts) + talk.line_of("bank")
                check(f"{which}: the end", service.end(), (0, ends, b""))
            # Who doesn't trust it may break off behind the handshake.
            heads = [text.partition(b"\r\n\r\n")[0].split(b"\r\n") for text, _, _ in there.posts if text]
            check(f"{which}: what came", {(head[0], b"Authorization: Bearer ..." in head) for head in heads},
                  {(b"POST /otlp/v1/traces HTTP/1.0", True)} if which == "trusted" else set())
