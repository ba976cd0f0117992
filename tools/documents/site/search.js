// Search over the sections in search_index.js, so that it also works from the file system. Each word has to occur.
const words = (new URLSearchParams(location.search).get("q") || "").trim().toLowerCase();
const list = document.getElementById("search-results");
document.getElementById("search-words").value = words;
const score = section => {
  const title = section.title.toLowerCase(), text = section.text.toLowerCase();
  if (!words || !words.split(/\s+/).every(word => title.includes(word) || text.includes(word))) return 0;
  const found = (title === words) * 1000 + title.includes(words) * 100 + Math.min(text.split(words).length - 1, 20) + 1;
  return found * section.weight;
};
sections.map(section => [section, score(section)]).filter(([, found]) => found).sort((one, other) => other[1] - one[1])
  .slice(0, 30).forEach(([section]) => {
    const at = Math.max(0, section.text.toLowerCase().indexOf(words) - 80), begin = at && section.text.indexOf(" ", at) + 1;
    const item = document.createElement("li"), link = document.createElement("a"), text = document.createElement("p");
    link.href = section.url;
    link.textContent = section.page === section.title ? section.title : `${section.page}: ${section.title}`;
    const end = section.text.indexOf(" ", begin + 240);
    text.textContent = section.text.slice(begin, end < 0 ? undefined : end);
    item.append(link, text);
    list.append(item);
  });
if (words && !list.children.length) list.textContent = "Nothing found.";
