"""Makes a trust anchor of the RPKI that certifies nothing, which fort needs before it accepts a
list.

It has a certificate, a list of revocations and a manifest (RFC 6487, RFC 9286), and a locator
(RFC 8630); `openssl` signs them. All of it is generated, in a folder of the caller.
"""
import base64
import hashlib
import os
import shutil
import subprocess
import time

BASE = "rsync://rpki.example/ta"
MANIFEST_TYPE = "1.2.840.113549.1.9.16.1.26"
REQUEST = ("req", "-config", "config", "-newkey", "rsa:2048", "-nodes", "-sha256")
SHA256 = bytes.fromhex("0609608648016503040201")

CONFIG = """
[ca]
default_ca = anchor
[anchor]
database = index
crlnumber = number
default_md = sha256
default_crl_days = 2
certificate = anchor.pem
private_key = anchor.key
crl_extensions = revocations
[revocations]
authorityKeyIdentifier = keyid
[req]
distinguished_name = name
prompt = no
[name]
CN = anchor
[anchor_certificate]
basicConstraints = critical, CA:true
subjectKeyIdentifier = hash
keyUsage = critical, keyCertSign, cRLSign
certificatePolicies = critical, 1.3.6.1.5.5.7.14.2
subjectInfoAccess = caRepository;URI:BASE/, 1.3.6.1.5.5.7.48.10;URI:BASE/anchor.mft
sbgp-ipAddrBlock = critical, IPv4:0.0.0.0/0, IPv6:0::/0
sbgp-autonomousSysNum = critical, AS:0-4294967295
[manifest_certificate]
subjectKeyIdentifier = hash
authorityKeyIdentifier = keyid
keyUsage = critical, digitalSignature
certificatePolicies = critical, 1.3.6.1.5.5.7.14.2
crlDistributionPoints = URI:BASE/anchor.crl
authorityInfoAccess = caIssuers;URI:BASE/anchor.cer
subjectInfoAccess = 1.3.6.1.5.5.7.48.11;URI:BASE/anchor.mft
sbgp-ipAddrBlock = critical, IPv4:inherit, IPv6:inherit
sbgp-autonomousSysNum = critical, AS:inherit
""".replace("BASE", BASE)


def der(tag, *contents):
    """Returns an element of DER with this tag."""
    content = b"".join(contents)
    length = len(content)
    if length < 128:
        return bytes([tag, length]) + content
    octets = length.to_bytes((length.bit_length() + 7) // 8, "big")
    return bytes([tag, 128 | len(octets)]) + octets + content


def moment(seconds):
    """Returns a time in DER, this many seconds from now."""
    return der(0x18, time.strftime("%Y%m%d%H%M%SZ", time.gmtime(time.time() + seconds)).encode())


def manifest(listed):
    """Returns the content of a manifest (RFC 9286 section 4.2) that lists these files."""
    files = [
        der(0x30, der(0x16, name.encode()), der(0x03, b"\0", hashlib.sha256(content).digest()))
        for name, content in listed
    ]
    return der(0x30, der(0x02, b"\1"), moment(-3600), moment(86400), SHA256, der(0x30, *files))


class Workshop:
    """A folder in which `openssl` makes the parts of an anchor."""

    def __init__(self, folder):
        self.folder = folder
        os.makedirs(folder)

    def openssl(self, *words):
        """Runs openssl in the folder."""
        subprocess.run(["openssl", *words], cwd=self.folder, check=True, capture_output=True,
                       timeout=180)

    def keep(self, name, content):
        """Writes a file."""
        with open(os.path.join(self.folder, name), "wb") as file:
            file.write(content)

    def kept(self, name):
        """Returns the content of a file."""
        with open(os.path.join(self.folder, name), "rb") as file:
            return file.read()

    def make_anchor(self):
        """Makes the anchor's key, its certificate and its list of revocations, in DER."""
        self.keep("config", CONFIG.encode())
        self.keep("index", b"")
        self.keep("number", b"01\n")
        self.openssl(*REQUEST, "-x509", "-days", "2", "-set_serial", "1", "-keyout", "anchor.key",
                     "-extensions", "anchor_certificate", "-out", "anchor.pem")
        self.openssl("x509", "-in", "anchor.pem", "-outform", "DER", "-out", "anchor.cer")
        self.openssl("rsa", "-in", "anchor.key", "-pubout", "-outform", "DER", "-out", "public")
        self.openssl("ca", "-config", "config", "-gencrl", "-out", "crl.pem")
        self.openssl("crl", "-in", "crl.pem", "-outform", "DER", "-out", "anchor.crl")

    def make_manifest(self):
        """Makes the manifest, signed with a key of its own."""
        self.openssl(*REQUEST, "-subj", "/CN=manifest", "-keyout", "manifest.key",
                     "-out", "request.pem")
        self.openssl("x509", "-req", "-in", "request.pem", "-CA", "anchor.pem",
                     "-CAkey", "anchor.key", "-set_serial", "2", "-days", "2", "-sha256",
                     "-extfile", "config", "-extensions", "manifest_certificate",
                     "-out", "manifest.pem")
        self.keep("content", manifest([("anchor.crl", self.kept("anchor.crl"))]))
        self.openssl("cms", "-sign", "-binary", "-nodetach", "-keyid", "-md", "sha256",
                     "-nosmimecap", "-econtent_type", MANIFEST_TYPE, "-in", "content",
                     "-signer", "manifest.pem", "-inkey", "manifest.key", "-outform", "DER",
                     "-out", "anchor.mft")


def make(folder):
    """Makes the anchor in this new folder: the folders of its locator and of its repository."""
    shop = Workshop(os.path.join(folder, "made"))
    shop.make_anchor()
    shop.make_manifest()
    locators, repository = os.path.join(folder, "locators"), os.path.join(folder, "repository")
    shown = os.path.join(repository, BASE.replace("rsync://", ""))
    for path in (locators, shown):
        os.makedirs(path)
    for name in ("anchor.cer", "anchor.crl", "anchor.mft"):
        shutil.copy(os.path.join(shop.folder, name), shown)
    with open(os.path.join(locators, "anchor.tal"), "w", encoding="ascii") as file:
        file.write(f"{BASE}/anchor.cer\n\n{base64.b64encode(shop.kept('public')).decode()}\n")
    return locators, repository
