'use strict'

// A window on a picture that is larger than it: to zoom with buttons, keys and the wheel, and to move with the mouse.

const [LEAST, MOST] = [0.05, 3]
const STEP = 1.25
const AROUND = 20 // pixels around a box that is shown
const DRAGGED = 4 // pixels after which a press moves the picture

class Scroll {
  #root
  #picture
  #size
  #scale = 1

  constructor(root) {
    this.#root = root
    root.addEventListener('wheel', (event) => this.#wheel(event), { passive: false })
    root.addEventListener('pointerdown', (event) => this.#press(event))
  }

  /** Shows a picture of a size, as large as fits but no larger than it is. */
  show(picture, size) {
    this.#picture = picture
    this.#size = size
    picture.setAttribute('viewBox', `0 0 ${size.width} ${size.height}`)
    this.#root.replaceChildren(picture)
    this.fit(0.6)
  }

  /** Shows all, at no smaller scale than `least`. */
  fit(least = LEAST) {
    if (!this.#size) return
    const { clientWidth, clientHeight } = this.#root
    const scale = Math.min(1, (clientWidth - 2) / this.#size.width, (clientHeight - 2) / this.#size.height)
    this.#set(Math.max(scale, least))
    this.#root.scrollTo(0, 0)
  }

  /** Zooms by so many steps around a point of the window. */
  zoom(steps, x = this.#root.clientWidth / 2, y = this.#root.clientHeight / 2) {
    if (!this.#size) return
    const before = this.#scale
    const [left, top] = [(this.#root.scrollLeft + x) / before, (this.#root.scrollTop + y) / before]
    this.#set(before * STEP ** steps)
    this.#root.scrollTo(left * this.#scale - x, top * this.#scale - y)
  }

  /** Moves so that a box can be seen. */
  reveal({ x, y, width, height }) {
    const { scrollLeft, scrollTop, clientWidth, clientHeight } = this.#root
    const moved = (from, begin, end, length) => {
      if (begin < from || end > from + length) return Math.max(0, (begin + end - length) / 2)
      return from
    }
    const of = (value) => value * this.#scale
    const left = moved(scrollLeft, of(x) - AROUND, of(x + width) + AROUND, clientWidth)
    const top = moved(scrollTop, of(y) - AROUND, of(y + height) + AROUND, clientHeight)
    this.#root.scrollTo(left, top)
  }

  #set(scale) {
    this.#scale = Math.min(Math.max(scale, LEAST), MOST)
    this.#picture.setAttribute('width', this.#size.width * this.#scale)
    this.#picture.setAttribute('height', this.#size.height * this.#scale)
  }

  #wheel(event) {
    if (!event.ctrlKey) return
    event.preventDefault()
    const { left, top } = this.#root.getBoundingClientRect()
    this.zoom(event.deltaY < 0 ? 1 : -1, event.clientX - left, event.clientY - top)
  }

  #press(event) {
    if (event.button !== 0 || event.pointerType === 'touch') return
    const begun = { x: event.clientX, y: event.clientY, left: this.#root.scrollLeft, top: this.#root.scrollTop }
    const move = ({ clientX, clientY }) => {
      const [x, y] = [clientX - begun.x, clientY - begun.y]
      if (Math.hypot(x, y) < DRAGGED) return
      this.#root.classList.add('dragged')
      this.#root.scrollTo(begun.left - x, begun.top - y)
    }
    const end = () => {
      this.#root.classList.remove('dragged')
      removeEventListener('pointermove', move)
    }
    addEventListener('pointermove', move)
    addEventListener('pointerup', end, { once: true })
    addEventListener('pointercancel', end, { once: true })
  }
}

module.exports = { Scroll }
