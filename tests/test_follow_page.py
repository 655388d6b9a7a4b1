"""How docs/CLIENTS.md lets nginx hand out the versions of cards: who reads what, by which modes.

If root runs this, nginx is a user of its own, who reads the files by the group alone.
"""

import base64
import http.client
import json
import os
import pwd
import re
import shutil
import subprocess
import sys
import unittest
from contextlib import closing

from http_requests import card
from nginx import configuration, once_it_listens
from pages import Page
from program import PATIENCE, free_port
from python_client import FOLDER
from test_follow import FollowTest

BLOCKS = {it.info: it.text for it in Page("docs/CLIENTS.md").blocks()
          if "UMask=" in it.text or it.info == "nginx"}
PLACE = "/var/lib/tosculai-follow"
USERS = ["ann", "hall", "eve", "annx"]
PASSWORD = "open sesame"
SERVER = """\
    server {
        listen 127.0.0.1:%s;
        auth_basic "contacts";
        auth_basic_user_file users;
        %s
    }
"""


@unittest.skipUnless(shutil.which("nginx"), "no nginx on this machine")
class HandedOut(FollowTest):
    def setUp(self):
        super().setUp()
        os.chmod(self.folder, 0o755)
        self.web = pwd.getpwnam("www-data") if os.getuid() == 0 else None
        self.backup.mkdir()
        os.chmod(self.backup, int(re.search("StateDirectoryMode=(.*)", BLOCKS["sh root"])[1], 8))
        if self.web:
            os.chown(self.backup, 0, self.web.pw_gid)
        self.staff.put(card("a", "<script>alert(1)</script>"))
        self.staff.put(card("A/b", "Ab"))
        self.clients.put(card("c", "Cy"))
        self.follow_as_the_service()
        self.start_nginx()

    def follow_as_the_service(self):
        """One round under the umask and the group that the page gives to the service."""
        def become():
            os.umask(int(re.search("UMask=(.*)", BLOCKS["sh root"])[1], 8))
            if self.web:
                os.setgid(self.web.pw_gid)

        url = f"http://127.0.0.1:{self.server.address[1]}"
        subprocess.run([sys.executable, FOLDER / "follow.py", url, self.backup, "--once",
                        "--dated"], preexec_fn=become, check=True, stdout=subprocess.DEVNULL,
                       cwd="/", timeout=PATIENCE)

    def start_nginx(self):
        place = self.folder / "nginx"
        place.mkdir()
        self.port = free_port()
        (place / "users").write_text("".join(f"{it}:{{PLAIN}}{PASSWORD}\n" for it in USERS))
        location = BLOCKS["nginx"].replace(PLACE, str(self.backup))
        user = f"user {self.web.pw_name};" if self.web else ""
        text = configuration(SERVER % (self.port, location))
        (place / "nginx.conf").write_text(f"{user}\n{text}")
        nginx = subprocess.Popen(["nginx", "-p", str(place), "-c", "nginx.conf"],
                                 stdin=subprocess.DEVNULL, stderr=subprocess.DEVNULL)
        self.addCleanup(nginx.wait, PATIENCE)
        self.addCleanup(nginx.terminate)

    def ask(self, path, user="ann", password=PASSWORD):
        """The status, the fields and the octets of a reply."""
        basic = "Basic " + base64.b64encode(f"{user}:{password}".encode()).decode()

        def ask():
            talk = http.client.HTTPConnection("127.0.0.1", self.port, timeout=PATIENCE)
            with closing(talk):
                talk.request("GET", path, headers={"Authorization": basic} if user else {})
                reply = talk.getresponse()
                return reply.status, reply.headers, reply.read()

        return once_it_listens(ask)

    def test_who_reads_what(self):
        for uid in "a", "A/b":
            folder = "/versions/staff/" + os.path.basename(self.versions.folder_of(uid))
            status, fields, octets = self.ask(f"{folder}/index.json", "hall")
            self.assertEqual(200, status)
            file = json.loads(octets)["versions"][0]["file"]
            status, fields, octets = self.ask(f"{folder}/{file}")
            self.assertEqual((200, self.staff.get(uid).text), (status, octets.decode()))
            self.assertEqual("nosniff", fields["X-Content-Type-Options"])
            self.assertNotIn("html", fields["Content-Type"])
            for user, wanted in ("eve", 403), ("annx", 403), ("", 401):
                self.assertEqual(wanted, self.ask(f"{folder}/{file}", user)[0], user)
            self.assertEqual(401, self.ask(f"{folder}/{file}", password="wrong")[0])

    def test_nothing_else_is_handed_out(self):
        for path in ("/versions/staff/", "/versions/staff/a/", "/versions/staff/../.tosculai.db",
                     "/versions/staff/a/../../.tosculai.db", "/versions/staff%2f..%2f.tosculai.db",
                     "/versions/staff/..%2f.tosculai.db", "/versions/staff../.tosculai.db",
                     "/versions/staff/../a.vcf", "/versions/clients/c/index.json"):
            self.assertIn(self.ask(path)[0], (400, 403, 404), path)


if __name__ == "__main__":
    unittest.main()
