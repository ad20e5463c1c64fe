"""Drives a server by Django's cache backends over pymemcache and pylibmc: the cache itself, cached pages, and sessions.
Prints a line for each check: `ok NAME` or `FAILED NAME: WHY`.

    /usr/bin/python3 checks_django.py HOST PORT
"""
import sys
import time

import django
from django.conf import settings

BACKENDS = {"pymemcache": "PyMemcacheCache", "pylibmc": "PyLibMCCache"}
made = []


def configure(host, port):
    caches = {name: {"BACKEND": f"django.core.cache.backends.memcached.{kind}", "LOCATION": f"{host}:{port}", "KEY_PREFIX": name} for name,
              kind in BACKENDS.items()}
    settings.configure(
        SECRET_KEY="only for this check", ALLOWED_HOSTS=["testserver"], ROOT_URLCONF="checks_django", USE_TZ=True,
        CACHES={"default": caches["pymemcache"], **caches}, SESSION_ENGINE="django.contrib.sessions.backends.cached_db",
        INSTALLED_APPS=["django.contrib.sessions"], MIDDLEWARE=["django.contrib.sessions.middleware.SessionMiddleware"],
        DATABASES={"default": {"ENGINE": "django.db.backends.sqlite3", "NAME": ":memory:"}},
    )
    django.setup()


def page(_request, number):
    from django.http import HttpResponse

    made.append(number)
    return HttpResponse(f"page {number}, made {len(made)}")


def counted(request):
    """Counts the visits of a session."""
    from django.http import HttpResponse

    request.session["visits"] = request.session.get("visits", 0) + 1
    return HttpResponse(str(request.session["visits"]))


def addresses():
    from django.urls import path
    from django.views.decorators.cache import cache_page

    return [path("pages/<int:number>", cache_page(100)(page)), path("visits", counted)]


def equal(found, wanted):
    if found != wanted:
        raise AssertionError(f"{found!r} in place of {wanted!r}")


def keeps_values(cache):
    for value in ("text", "ü" * 1000, 7, 2.5, None, ["list", {"of": ("things", b"bytes")}], "x" * 900_000):
        cache.set("kept", value, 100)
        equal(cache.get("kept", "absent"), value)
    equal((cache.get("never-set"), cache.get("never-set", "other"), "kept" in cache, "never-set" in cache), (None, "other", True, False))


def adds_and_deletes(cache):
    cache.delete("added")
    equal((cache.add("added", 1), cache.add("added", 2), cache.get("added")), (True, False, 1))
    equal((cache.delete("added"), cache.delete("added")), (True, False))
    equal((cache.get_or_set("added", lambda: 3, 100), cache.get_or_set("added", 4, 100)), (3, 3))


def counts(cache):
    cache.set("count", 41)
    equal((cache.incr("count"), cache.incr("count", 10), cache.decr("count", 2), cache.get("count")), (42, 52, 50, 50))
    try:
        cache.incr("never-counted")
    except ValueError:
        return
    raise AssertionError("a count of what isn't there")


def fetches_2000_keys(cache):
    many = {f"many-{number}": f"value {number}" for number in range(2000)}
    equal(cache.set_many(many, 100), [])
    equal(cache.get_many([*many, "never-set"]), many)
    cache.delete_many(list(many)[:1000])
    equal(cache.get_many(many), dict(list(many.items())[1000:]))


def lets_items_expire(cache):
    cache.set("brief", 1, 1)
    cache.set("lasting", 1, None)
    cache.set("long", 1, 60 * 60 * 24 * 60)
    equal(cache.touch("brief", 2), True)
    equal(cache.touch("never-set", 2), False)
    equal((cache.get("brief"), cache.get("long")), (1, 1))
    time.sleep(3.2)
    equal((cache.get("brief"), cache.get("lasting"), cache.get("long")), (None, 1, 1))


def takes_a_timeout_of_0(cache):
    """Such an item is gone at once: Django sends -1 for it."""
    cache.set("dead", 1, 0)
    equal(cache.get("dead"), None)


def knows_versions(cache):
    cache.set("versioned", "first", version=1)
    cache.set("versioned", "second", version=2)
    equal((cache.get("versioned", version=1), cache.get("versioned", version=2)), ("first", "second"))
    cache.incr_version("versioned")
    equal((cache.get("versioned"), cache.get("versioned", version=2)), (None, "first"))


def caches_pages(_cache):
    from django.test import Client

    first = [Client().get(f"/pages/{number}").content for number in range(20)]
    again = [Client().get(f"/pages/{number}").content for number in range(20)]
    equal((again, len(made)), (first, 20))


def keeps_sessions(_cache):
    from django.contrib.sessions.backends.cache import SessionStore
    from django.core.management import call_command
    from django.test import Client

    call_command("migrate", verbosity=0)
    visitors = [Client() for _ in range(5)]
    equal([[visitor.get("/visits").content for visitor in visitors] for _ in range(3)], [[b"1"] * 5, [b"2"] * 5, [b"3"] * 5])
    session = SessionStore()
    session["name"] = "somebody"
    session.save()
    equal(SessionStore(session.session_key).get("name"), "somebody")
    session.flush()
    equal(SessionStore(session.session_key).get("name"), None)


def tried(name, check, cache):
    try:
        check(cache)
        print("ok", name, flush=True)
    except Exception as why:
        print(f"FAILED {name}: {type(why).__name__} {why}"[:300], flush=True)


def main():
    global urlpatterns
    configure(sys.argv[1], sys.argv[2])
    urlpatterns = addresses()
    from django.core.cache import caches

    for backend in BACKENDS:
        for check in (keeps_values, adds_and_deletes, counts, fetches_2000_keys, lets_items_expire, takes_a_timeout_of_0, knows_versions):
            tried(f"{backend} {check.__name__}", check, caches[backend])
    for check in (caches_pages, keeps_sessions):
        tried(check.__name__, check, caches["default"])


if __name__ == "__main__":
    sys.modules["checks_django"] = sys.modules["__main__"]
    main()
