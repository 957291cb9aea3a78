// ---- Titles that are cut off: their full text for those who point at them, and for those who use keys ----------------------

/**
 * A title that is cut off says all when it is pointed at, and takes the focus, in which it is shown whole.
 * @param {HTMLElement} title
 */
function markCut(title) {
  const isOpen = title.matches(":hover, :focus");
  if (isOpen) return;
  const isCut = title.scrollHeight > title.clientHeight + 1;
  if (isCut) {
    title.tabIndex = 0;
    title.title = title.textContent || "";
  } else {
    title.removeAttribute("tabindex");
    title.removeAttribute("title");
  }
}

/** Follows the size of the title of the page, and the pointer over the cells of the table. */
function followTitles() {
  const title = any("title");
  new ResizeObserver(() => markCut(title)).observe(title);
  title.addEventListener("blur", () => markCut(title));
  element("table", HTMLTableElement).addEventListener("mouseover", ({ target }) => {
    if (!(target instanceof HTMLTableCellElement)) return;
    if (target.scrollWidth > target.clientWidth) target.title = target.textContent || "";
    else target.removeAttribute("title");
  });
}
