"""Who is let in: the browser that was given the address with the token, and pages of this server alone."""
import hmac
import secrets

from aiohttp import web

LONGEST_BODY = 2**24
POLICY = (
    "default-src 'none'; script-src 'self'; style-src 'self'; img-src 'self' data:; connect-src 'self' ws://{host}; "
    "base-uri 'none'; form-action 'none'; frame-ancestors 'none'; require-trusted-types-for 'script'; trusted-types 'none'"
)
HEADERS = {
    "X-Content-Type-Options": "nosniff",
    "X-Frame-Options": "DENY",
    "Referrer-Policy": "no-referrer",
    "Cross-Origin-Resource-Policy": "same-origin",
    "Cross-Origin-Opener-Policy": "same-origin",
    "Cache-Control": "no-store",
    "Server": "kq-page",
}
OPEN = "Open the address that kq-page printed when it started."


def is_same(given, wanted):
    return hmac.compare_digest(given.encode("utf-8", "surrogatepass"), wanted.encode())


class Guard:
    """The secrets of one run. The token stands in the address that is printed, and becomes a cookie.

    Cookies aren't kept apart by port, so another server of this machine may see ours. That is why a page also needs the key,
    which its browser keeps for this port alone."""

    def __init__(self, port):
        self.host = f"127.0.0.1:{port}"
        self.token, self.cookie, self.key = (secrets.token_urlsafe(32) for _ in range(3))
        self.cookie_name = f"kq_page_{port}"

    @property
    def address(self):
        return f"http://{self.host}/?token={self.token}"

    def why_not(self, request):
        """Why a request isn't served, as a status and a sentence; or none."""
        headers = request.headers
        if headers.getall("Host", []) != [self.host]:
            return 403, f"This server answers to {self.host} alone."
        origins = headers.getall("Origin", [])
        if any(origin != f"http://{self.host}" for origin in origins):
            return 403, "Another page may not ask this server."
        if any(site not in ("none", "same-origin") for site in headers.getall("Sec-Fetch-Site", [])):
            return 403, f"Another page may not ask this server. {OPEN}"
        if "Upgrade" in headers and not origins:
            return 403, "A socket has to say which page opens it."
        if request.content_length is not None and request.content_length > LONGEST_BODY:
            return 413, "A body has at most 16 MiB."
        if self.brings_token(request):
            return None if is_same(request.query["token"], self.token) else (403, f"The token is another one. {OPEN}")
        if not is_same(request.cookies.get(self.cookie_name, ""), self.cookie):
            return 403, OPEN
        return None

    @staticmethod
    def brings_token(request):
        return request.path == "/" and "token" in request.query

    @web.middleware
    async def middleware(self, request, handler):
        refused = self.why_not(request)
        if refused:
            status, sentence = refused
            return web.Response(status=status, text=sentence + "\n")
        if not self.brings_token(request):
            return await handler(request)
        # The token leaves the address at once. What follows # is sent to no server.
        found = web.Response(status=303, headers={"Location": f"/#key={self.key}"})
        found.set_cookie(self.cookie_name, self.cookie, httponly=True, samesite="Strict", path="/")
        return found

    async def add_headers(self, _, response):
        """For each response, whoever makes it."""
        response.headers.update(HEADERS)
        response.headers["Content-Security-Policy"] = POLICY.format(host=self.host)
