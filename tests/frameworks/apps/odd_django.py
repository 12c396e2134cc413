"""Views that break their transaction, in Django, with `atomic()` alone and with the transaction of the package."""

import json
import os
from contextlib import contextmanager

import django
from django.conf import settings

DATABASE = {"ENGINE": "django.db.backends.sqlite3", "NAME": os.environ["BOOKS"], "OPTIONS": {"timeout": 10}}
settings.configure(
    SECRET_KEY="a test", ALLOWED_HOSTS=["*"], ROOT_URLCONF=__name__, DATABASES={"default": DATABASE}, USE_TZ=True
)
django.setup()

from django.core.wsgi import get_wsgi_application
from django.db import IntegrityError, connection, transaction
from django.http import JsonResponse
from django.urls import path
from django.views.decorators.csrf import csrf_exempt

from odb_batch.django import group
from odb_batch.wsgi import BatchMiddleware

with connection.cursor() as cursor:
    cursor.execute("CREATE TABLE IF NOT EXISTS Notes (Id TEXT PRIMARY KEY)")
connection.close()


def add(request):
    with connection.cursor() as cursor:
        cursor.execute("INSERT INTO Notes VALUES (%s)", [json.loads(request.body)["Id"]])
    return JsonResponse({}, status=201)


@csrf_exempt
def notes(request):
    if request.method == "POST":
        return add(request)
    with connection.cursor() as cursor:
        return JsonResponse({"value": sorted(row[0] for row in cursor.execute("SELECT Id FROM Notes"))})


@csrf_exempt
def forgiving(request):
    """Takes a key that is there for success: the error of the database is caught, and its transaction is broken."""
    try:
        with transaction.atomic(savepoint=False):
            return add(request)
    except IntegrityError:
        return JsonResponse({}, status=200)


@csrf_exempt
def hooked(request):
    """Has something done after the commit, which fails."""
    transaction.on_commit(lambda: {}["nothing"])
    return add(request)


@csrf_exempt
def echo(request):
    return JsonResponse(
        {"headers": dict(request.headers), "url": request.build_absolute_uri(), "body": request.body.decode()}
    )


urlpatterns = [path(f"odata/{it.__name__}", it) for it in (notes, forgiving, hooked, echo)]


@contextmanager
def open_connection(name):
    """What who knows that requests close connections would write."""
    connection.close_if_unusable_or_obsolete = lambda: None
    try:
        with transaction.atomic():
            yield
    finally:
        del connection.close_if_unusable_or_obsolete


def application(environ, start_response):
    """Serves by the transaction that a path begins with."""
    for name, kind in BY_NAME.items():
        if environ["PATH_INFO"].startswith("/" + name):
            return kind(environ, start_response)


TRANSACTIONS = {"atomic": lambda name: transaction.atomic(), "open": open_connection, "group": group, "odata": group}
BY_NAME = {
    name: BatchMiddleware(get_wsgi_application(), f"/{name}/$batch", transaction=it, root="/")
    for name, it in TRANSACTIONS.items()
}
