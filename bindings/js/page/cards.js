// A list of cards, however long. Cards are filled when they come near the screen, and again only if what they show is
// another thing.
import { dim, el, setText } from "./dom.js";

/** How near a group of cards is filled, and how many cards it has. */
const NEAR = "400px";
const GROUP = 12;

/**
 * What a card shows.
 * @typedef {object} Item
 * @property {string} id which card it is, from one drawing to the next
 * @property {string} title
 * @property {string} about a line below the title
 * @property {() => string} key what the rest is made of: if it is the same one, the rest stays
 * @property {() => Node[]} fill makes the rest
 */

class Card {
  #title = el("h3");
  #about = el("p");
  #body = el("div");
  #isNear = false;
  #item;
  #key;

  constructor() {
    this.element = el("div", { class: "card" }, this.#title, this.#about, this.#body);
  }

  /** @param {Item} item */
  show(item) {
    this.#item = item;
    setText(this.#title, item.title);
    setText(this.#about, item.about);
    if (this.#isNear) this.#fill();
  }

  /** Has the card filled from now on. */
  come() {
    if (this.#isNear) return;
    this.#isNear = true;
    this.#fill();
  }

  #fill() {
    const key = this.#item.key();
    if (key === this.#key) return;
    this.#key = key;
    this.#body.replaceChildren(...this.#item.fill());
  }
}

/** Puts elements into a box. Those that stand in their places stay there. */
function arrange(box, elements) {
  const wanted = new Set(elements);
  for (const it of [...box.children]) if (!wanted.has(it)) it.remove();
  let next = box.firstChild;
  for (const it of elements) {
    if (it === next) next = next.nextSibling;
    else box.insertBefore(it, next);
  }
}

/** The cards of one box. They stand in groups, so that the browser has to find out of few whether they are near. */
export class Cards {
  #box;
  #none;
  #cards = new Map();
  #groups = [];
  #near = new WeakSet();
  #observer;

  /**
   * @param {HTMLElement} box
   * @param {string} none what is said if there is no card
   */
  constructor(box, none) {
    this.#box = box;
    this.#none = dim(none);
    const margins = { rootMargin: NEAR, scrollMargin: NEAR };
    this.#observer = new IntersectionObserver((entries) => this.#moved(entries), margins);
  }

  /** @param {Item[]} items */
  draw(items) {
    const before = this.#cards;
    this.#cards = new Map();
    const cards = items.map((item) => this.#shown(item, before));
    const count = Math.ceil(cards.length / GROUP);
    for (const it of this.#groups.splice(count)) this.#observer.unobserve(it.element);
    while (this.#groups.length < count) this.#groups.push(this.#group());
    this.#groups.forEach((it, place) => this.#fill(it, cards.slice(place * GROUP, (place + 1) * GROUP), place === 0));
    arrange(this.#box, count > 0 ? this.#groups.map((it) => it.element) : [this.#none]);
  }

  #shown(item, before) {
    const card = before.get(item.id) ?? new Card();
    this.#cards.set(item.id, card);
    card.show(item);
    return card;
  }

  #group() {
    const element = el("div", { class: "cards" });
    this.#observer.observe(element);
    return { element, cards: [] };
  }

  /** Puts cards into a group, and fills them if it is near. */
  #fill(group, cards, isFirst) {
    group.cards = cards;
    arrange(group.element, cards.map((it) => it.element));
    if (isFirst || this.#near.has(group.element)) for (const it of cards) it.come();
  }

  #moved(entries) {
    for (const { target, isIntersecting } of entries) {
      if (!isIntersecting) continue;
      this.#observer.unobserve(target);
      this.#near.add(target);
      for (const it of this.#groups.find(({ element }) => element === target)?.cards ?? []) it.come();
    }
  }
}
