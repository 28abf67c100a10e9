// What is wrong with how the page looks now: as a list of sentences. Run in the page by checks/page.
const found = [], LEAST = 14, CONTRAST = 4.5;
const parse = text => { const it = /rgba?\(([^)]*)\)/.exec(text); if (!it) return null; const [r, g, b, a = 1] = it[1].split(/[ ,/]+/).map(Number); return [r, g, b, a]; };
const light = ([r, g, b]) => { const [x, y, z] = [r, g, b].map(it => { it /= 255; return it <= 0.03928 ? it / 12.92 : ((it + 0.055) / 1.055) ** 2.4; }); return 0.2126 * x + 0.7152 * y + 0.0722 * z; };
const over = (top, under) => top.slice(0, 3).map((it, at) => it * top[3] + under[at] * (1 - top[3]));
const backOf = element => {
  const above = [];
  for (let it = element; it; it = it.parentElement) { const colour = parse(getComputedStyle(it).backgroundColor); if (colour && colour[3]) { above.push(colour); if (colour[3] === 1) break; } }
  return above.reverse().reduce((under, it) => over(it, under), [255, 255, 255]);
};
for (const element of document.querySelectorAll("body *")) {
  if (element.closest("script, style, svg, option, .skip, [aria-hidden]") || !element.getClientRects().length) continue;
  const isField = /^(INPUT|TEXTAREA|SELECT)$/.test(element.tagName);
  const text = isField ? element.value || element.placeholder : [...element.childNodes].filter(it => it.nodeType === 3).map(it => it.data).join("").trim();
  if (!text || /^(checkbox|radio|file)$/.test(element.type)) continue;
  const style = getComputedStyle(element), size = parseFloat(style.fontSize), what = `“${text.slice(0, 30)}”`;
  if (size < LEAST) found.push(`${what} has ${size} px`);
  let opacity = 1;
  for (let it = element; it; it = it.parentElement) opacity *= Number(getComputedStyle(it).opacity);
  const back = backOf(element), ink = parse(style.color), shown = over([...ink.slice(0, 3), ink[3] * opacity], back), [high, low] = [light(shown), light(back)].sort((a, b) => b - a);
  if (!element.disabled && (high + 0.05) / (low + 0.05) < CONTRAST) found.push(`${what} has a contrast of ${((high + 0.05) / (low + 0.05)).toFixed(1)}`);
}
if (document.documentElement.scrollWidth > innerWidth + 1) found.push(`the page is ${document.documentElement.scrollWidth} px wide`);
for (const element of document.querySelectorAll("button, input, select, textarea, a[href], [tabindex]")) {
  if (element.closest("[aria-hidden]") || !element.getClientRects().length || element.type === "file") continue;
  const name = element.getAttribute("aria-label") || element.textContent.trim() || element.title || element.placeholder || element.labels?.[0]?.textContent || element.getAttribute("aria-labelledby");
  if (!name && element.id !== "table" && element.id !== "commands") found.push(`${element.tagName} ${element.id} has no name`);
}
return [...new Set(found)].slice(0, 12);
