// The search box: entries whose name holds what is typed, those that begin with it first. `?q=NAME` types for you.
const box = document.querySelector("header input"), list = document.getElementById("found");
const rank = (name, typed) => (name === typed ? 0 : name.startsWith(typed) ? 1 : 2);
function find() {
  const typed = box.value.trim().toLowerCase();
  const hits = typed ? ENTRIES.filter(([name]) => name.toLowerCase().includes(typed)) : [];
  hits.sort((a, b) => rank(a[0].toLowerCase(), typed) - rank(b[0].toLowerCase(), typed) || a[0].length - b[0].length);
  list.replaceChildren(...hits.slice(0, 20).map(([name, said, place]) => {
    const item = document.createElement("li"), link = item.appendChild(document.createElement("a"));
    link.href = place;
    link.append(name, " ");
    link.appendChild(document.createElement("span")).className = "soft";
    link.lastChild.textContent = said;
    link.addEventListener("click", () => list.replaceChildren());
    return item;
  }));
}
box.value = new URLSearchParams(location.search).get("q") ?? "";
find();
box.addEventListener("input", find);
box.addEventListener("keydown", (event) => {
  if (event.key === "Enter" && list.querySelector("a")) list.querySelector("a").click();
  if (event.key === "Escape") list.replaceChildren();
});
