// Lists beside the books: favourites and cards that were opened lately, which are of this browser
// alone, and groups.
import { reachedBy } from "./groups.js";
import { keyOf } from "./shelf.js";

const MOST = 60;

export class Lists {
  constructor(store) {
    this.store = store;
    this.favourites = new Set();
    this.recent = [];
  }

  async load() {
    const [favourites, recent] = await Promise.all(
      ["favourites", "recent"].map((it) => this.store.setting(it)),
    );
    this.favourites = new Set(favourites ?? []);
    this.recent = recent ?? [];
  }

  isFavourite(book, uid) {
    return this.favourites.has(`${book}/${uid}`);
  }

  turnFavourite(book, uid) {
    const key = `${book}/${uid}`;
    if (!this.favourites.delete(key)) this.favourites.add(key);
    return this.store.keepSetting("favourites", [...this.favourites]);
  }

  /** Cards were moved, `[book, uid, to]` each: what is kept of them goes with them. */
  async moved(places) {
    const to = new Map(places.map(([book, uid, other]) => [`${book}/${uid}`, `${other}/${uid}`]));
    const now = (key) => to.get(key) ?? key;
    this.favourites = new Set([...this.favourites].map(now));
    this.recent = [...new Set(this.recent.map(now))];
    await this.store.keepSetting("favourites", [...this.favourites]);
    await this.store.keepSetting("recent", this.recent);
  }

  /** A card was opened. */
  opened(book, uid) {
    const key = `${book}/${uid}`;
    if (this.recent[0] === key) return;
    this.recent = [key, ...this.recent.filter((it) => it !== key)].slice(0, MOST);
    this.store.keepSetting("recent", this.recent);
  }

  /**
   * The rows of a list: `{kind: "favourites" | "recent"}`, a category with its name, or a group
   * with its book and UID, which has those of groups in it too.
   */
  pick(list, rows, shelf) {
    if (list.kind === "favourites") return rows.filter((row) => this.favourites.has(keyOf(row)));
    if (list.kind === "recent") {
      const place = new Map(this.recent.map((key, at) => [key, at]));
      return rows.filter((row) => place.has(keyOf(row)))
        .sort((a, b) => place.get(keyOf(a)) - place.get(keyOf(b)));
    }
    if (list.kind === "category") {
      const name = list.name.toLowerCase();
      return rows.filter((row) => row.cats?.some((it) => it.toLowerCase() === name));
    }
    const group = shelf.get(list.book, list.uid);
    const keys = new Set(reachedBy(shelf, list.book, group?.members ?? []).map(keyOf));
    return rows.filter((row) => keys.has(keyOf(row)));
  }
}
