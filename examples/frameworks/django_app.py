"""Books in Django, with batches: `gunicorn --threads 4 django_app:application`."""

import json
import os
from urllib.parse import quote

import django
from django.conf import settings

DATABASE = {
    "ENGINE": "django.db.backends.sqlite3",
    "NAME": os.environ.get("BOOKS", "books.sqlite"),
    "OPTIONS": {"timeout": 10},
    "ATOMIC_REQUESTS": os.environ.get("ATOMIC") == "1",
    "CONN_MAX_AGE": int(os.environ.get("CONN_MAX_AGE", "0")),
}
settings.configure(
    SECRET_KEY="an example", ALLOWED_HOSTS=["*"], ROOT_URLCONF=__name__, DATABASES={"default": DATABASE}, USE_TZ=True
)
django.setup()

from django.core.wsgi import get_wsgi_application
from django.db import IntegrityError, connection, models, transaction
from django.db.backends.sqlite3.base import DatabaseWrapper
from django.http import HttpResponse, JsonResponse
from django.urls import path, re_path
from django.views.decorators.csrf import csrf_exempt

from odb_batch.django import group
from odb_batch.wsgi import BatchMiddleware


# SQLite refuses a transaction that has read and then writes, if another one has written meanwhile. So each takes the
# lock first. Django 5.1 has an option for that: "transaction_mode": "IMMEDIATE".
DatabaseWrapper._start_transaction_under_autocommit = lambda self: self.cursor().execute("BEGIN IMMEDIATE")


class Book(models.Model):
    id = models.CharField(max_length=200, primary_key=True)
    title = models.CharField(max_length=200)
    version = models.IntegerField(default=1)

    class Meta:
        app_label, db_table = "books", "Books"

    def shown(self, status=200):
        headers = {"ETag": f'"{self.version}"', "Location": f"/odata/Books('{quote(self.id)}')"}
        return JsonResponse({"Id": self.id, "Title": self.title}, status=status, headers=headers)


def error(status, message):
    return JsonResponse({"error": {"code": str(status), "message": message}}, status=status)


def refuse_options(view):
    def checked(request, *names):
        is_refused = any(name.startswith("$") for name in request.GET)
        return error(501, "no query option of OData is supported") if is_refused else view(request, *names)

    return csrf_exempt(checked)


def texts(request, *names):
    """Members of the body, each a text, or None."""
    body = json.loads(request.body)
    values = [body.get(name) if isinstance(body, dict) else None for name in names]
    return [value if isinstance(value, str) and value else None for value in values]


@refuse_options
def books(request):
    if request.method == "GET":
        return JsonResponse({"value": [{"Id": it.id, "Title": it.title} for it in Book.objects.all()]})
    id, title = texts(request, "Id", "Title")
    if not (id and title):
        return error(400, "a book has an Id and a Title")
    try:
        with transaction.atomic():
            return Book.objects.create(id=id, title=title).shown(201)
    except IntegrityError:
        return error(409, "the book is there")


@refuse_options
def book(request, key):
    found = Book.objects.filter(id=key).first()
    if found is None:
        return error(404, "no such book")
    if request.method == "GET":
        return found.shown()
    if request.headers.get("If-Match", "*") not in ("*", f'"{found.version}"'):
        return error(412, "the book has changed")
    if request.method == "DELETE":
        found.delete()
        return HttpResponse(status=204)
    found.title, found.version = texts(request, "Title")[0], found.version + 1
    if found.title is None:
        return error(400, "a book has a Title")
    found.save()
    return HttpResponse(status=204)


urlpatterns = [path("odata/Books", books), re_path(r"^odata/Books\('([^']*)'\)$", book)]

if "Books" not in connection.introspection.table_names():
    with connection.schema_editor() as editor:
        editor.create_model(Book)
connection.close()

application = BatchMiddleware(
    get_wsgi_application(), "/odata/$batch", transaction=group, width=int(os.environ.get("WIDTH", "1"))
)
