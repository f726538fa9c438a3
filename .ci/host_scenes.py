"""The scenes of a server of several hosts, which .ci/sockets plays."""

import os
import re
import shutil
import tempfile

from real_server import ANSWER, LARGE_SITE, MISSING, connect, expect, request, response, run, scene, serving, until

# Two hosts, and a third one that has the files of the first under another index.
HOSTS = [
    "<VirtualHost *:80>", "ServerName a.example", "DocumentRoot htdocs/a", "</VirtualHost>",
    "<VirtualHost *>", "ServerName b.example:8080", "ServerAlias www.b.example [::1]", "DocumentRoot htdocs/b", "</VirtualHost>",
    "<VirtualHost *>", "ServerName c.example", "DocumentRoot htdocs/a", "DirectoryIndex c.html", "</VirtualHost>",
]
FILES = {"a/index.html": b"A\n", "a/c.html": b"C\n", "a/only": b"of a\n", "b/index.html": b"B\n", "b/docs/index.html": b"D\n"}


def asked_of(host, path="/", method="GET"):
    """A request with this Host."""
    return request(method, path).replace(b"Host: localhost", b"Host: " + host.encode())


def page(body, *fields):
    """The response that has this page."""
    return response("200 OK", "text/html", body, *fields)


@scene
def each_request_is_for_the_host_that_it_asks_for():
    moved = response("301 Moved Permanently", "text/plain", b"301 Moved Permanently\n", "Location: /docs/")
    asked = [
        (asked_of("a.example"), page(b"A\n")), (asked_of("B.Example"), page(b"B\n")), (asked_of("www.b.example:1"), page(b"B\n")),
        (asked_of("b.example."), page(b"B\n")), (asked_of("[::1]:8080"), page(b"B\n")), (asked_of("c.example"), page(b"C\n")),
        (asked_of("d.example"), page(b"A\n")), (asked_of(""), page(b"A\n")),
        (asked_of("a.example", "http://b.example/"), page(b"B\n")), (asked_of("b.example", "http://d.example/"), page(b"A\n")),
        (asked_of("a.example", "/docs"), MISSING), (asked_of("b.example", "/docs"), moved), (asked_of("b.example", "/only"), MISSING),
        (asked_of("c.example", "/only"), response("200 OK", "application/octet-stream", b"of a\n")),
    ]
    with serving(*HOSTS, files=FILES) as server:
        with connect(server.port) as client:
            for sent, wanted in asked:
                client.send(sent)
                expect(f"what {sent} is answered", client.reply(), wanted)
        server.stop()
        codes = ",".join(re.match(rb"HTTP/1.1 (\d+)", wanted)[1].decode() for _, wanted in asked)
        server.expect_report(f"0 ClientDone Direct {codes}")


@scene
def the_status_page_is_that_of_the_server_by_each_name():
    with serving(*HOSTS, files=FILES) as server:
        with connect(server.port) as client:
            for host in ["a.example", "b.example", "d.example"]:
                client.send(asked_of(host, "/server-status?auto"))
                expect(f"the page by {host}", re.search(rb"\r\n\r\n(.*)\n", client.reply())[1], b"Generation: 0")
        server.stop()
        server.expect_report("0 ClientDone Direct 200,200,200")


@scene
def a_restart_adds_a_host_and_another_one_drops_it():
    one, both = HOSTS[:4], HOSTS[:9]
    with serving(*one, files=FILES) as server:
        path = f"{server.folder}/httpd.conf"
        with open(path) as file:
            before = file.read()

        def restart(hosts, generation):
            with open(path, "w") as file:
                file.write(before.replace("\n".join(one), "\n".join(hosts)))
            expect("the answer", server.tell(b"graceful\n"), b"generation %d\n" % generation)

        sent = asked_of("b.example")
        for generation, hosts, old, new in [(1, both, b"A\n", b"B\n"), (2, one, b"B\n", b"A\n")]:
            with connect(server.port) as early:
                early.send(sent[:-7])
                until("a server that has taken a client", lambda: server.connections() == 1)
                restart(hosts, generation)
                with connect(server.port) as late:
                    late.send(sent)
                    expect("the page behind the restart", late.reply(), page(new))
                early.send(sent[-7:])
                expect("the page of before", early.reply(), page(old, "Connection: close"))
                early.expect_end()
            until("a server without a connection", lambda: server.connections() == 0)
        server.stop()
        ends = [f"{turn} LastSent Drained 200" for turn in range(2)] + [f"{turn + 1} ClientDone Direct 200" for turn in range(2)]
        server.expect_report(*ends, children=9, generation=2)


def resident(server):
    """The bytes of memory that the server has now."""
    with open(f"/proc/{server.process.pid}/status") as file:
        return 1024 * int(re.search(r"^VmRSS:\s+(\d+) kB", file.read(), re.M)[1])


@scene
def ten_hosts_of_one_folder_have_the_memory_of_one():
    taken = []
    for count in [1, 10]:
        hosts = [line for host in range(count) for line in ("<VirtualHost *>", f"ServerName host-{host}.example", "</VirtualHost>")]
        with serving(*hosts, files=LARGE_SITE) as server:
            with connect(server.port) as client:
                client.send(asked_of(f"host-{count - 1}.example"))
                expect("the page of the last host", client.reply(), ANSWER)
                taken.append(resident(server))
            server.stop()
            server.expect_report("0 ClientDone Direct 200")
    expect("whether ten have as much as one, within a megabyte", abs(taken[1] - taken[0]) < 1_000_000, True)


@scene
def the_example_of_two_hosts_is_accepted():
    with tempfile.TemporaryDirectory() as folder:
        examples = os.path.join(os.path.dirname(os.path.abspath(__file__)), "..", "examples")
        shutil.copytree(examples, f"{folder}/site")
        expect("-t", run(f"{folder}/site", "-t", "-f", "hosts.conf"), (0, b"Syntax OK\n"))


@scene
def a_further_section_than_there_may_be_is_refused():
    with tempfile.TemporaryDirectory() as folder:
        for count, wanted in [(64, (0, b"Syntax OK\n")), (65, (1, b"configuration refused at 129: BadSection\n"))]:
            with open(f"{folder}/httpd.conf", "w") as file:
                file.write("<VirtualHost *>\n</VirtualHost>\n" * count)
            expect(f"-t of {count} sections", run(folder, "-t", "-f", "httpd.conf"), wanted)
