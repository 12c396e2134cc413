"""What tests of the page do in it."""

import json


# What has to be over before a picture of the page is taken.
SETTLED = """await Promise.all(document.getAnimations().map((it) => it.finished))
for (let count = 0; count < 2; count++) await new Promise(requestAnimationFrame)"""


def great_batch(number=9000, fault=None):
    """A batch of ten megabytes; with a fault in one of its requests."""
    body = {"Title": "ä" * 200, "Text": "x" * 620, "Price": 9}
    requests = [{"id": f"r{at}", "method": "post", "url": f"Books({at})", "body": body} for at in range(number)]
    for at in range(1, number, 3):
        requests[at]["dependsOn"] = [f"r{at - 1}"]
    if fault is not None:
        requests[fault]["dependsOn"] = ["none"]
    return "{\"requests\": [\n" + ",\n".join(json.dumps(it, ensure_ascii=False) for it in requests) + "\n]}\n"


def has_verdict(page, words):
    """Waits until the verdict on the batch has some words."""
    page.until(f"return document.getElementById('verdict').textContent.includes({json.dumps(words)})")


def show_thousand(page):
    """Shows the example of a thousand requests."""
    choose(page, "examples", 5)
    has_verdict(page, "ok 997 requests")


def paste(page):
    """Pastes what is in `window.pasted` over the whole batch."""
    page.value("""const data = new DataTransfer()
        data.setData('text/plain', window.pasted)
        const field = document.getElementById('text')
        field.select()
        field.dispatchEvent(new ClipboardEvent('paste', { clipboardData: data, bubbles: true, cancelable: true }))""")


def write(page, text):
    """Writes a batch into its field as if it was pasted, and waits until it is checked."""
    before = page.value(f"""const field = document.getElementById('text')
        field.focus()
        field.select()
        const {{ count }} = await page
        document.execCommand('insertText', false, {json.dumps(text)})
        return count""")
    page.until(f"return (await page).count > {before}")


def read(page, text):
    """Puts events, outcomes or responses into their field, and reads them."""
    before = page.value(f"""const field = document.getElementById('second-text')
        field.value = {json.dumps(text)}
        field.dispatchEvent(new Event('input'))
        const {{ count }} = await page
        document.getElementById('read').click()
        return count""")
    page.until(f"return (await page).count > {before}")


def choose(page, id, value):
    """Chooses a value of a list, a field or a box to tick."""
    page.value(f"""const it = document.getElementById('{id}')
        if (it.type === 'checkbox') it.checked = {json.dumps(value)}
        else it.value = {json.dumps(str(value))}
        it.dispatchEvent(new Event('change'))""")


def answer(page, id, status):
    """Sets the status that a request is to be answered."""
    page.value(f"""const field = document.querySelector('[aria-label="The status that {id} is answered"]')
        field.value = '{status}'
        field.dispatchEvent(new Event('input'))""")


def step(page):
    """Has one event of the run come, or be refused."""
    before = page.text("said")
    page.value("document.getElementById('step').click()")
    page.until(f"return document.getElementById('said').textContent !== {json.dumps(before)}")


def play(page):
    """Plays the run to its end, and returns what the page says then."""
    choose(page, "speed", 1000)
    page.value("document.getElementById('play').click()")
    return page.until("const { textContent } = document.getElementById('said'); return textContent.includes('finished') && textContent")
