// A button on each block of code that copies what a reader types: the lines with a prompt, or all if there is none.
const prompts = { console: /^[$>] /, pycon: /^(>>>|\.\.\.) ?/ };
document.querySelectorAll("pre > code").forEach(code => {
  const prompt = prompts[(code.className.match(/language-(\w+)/) || [])[1]];
  const lines = code.textContent.split("\n");
  const typed = prompt ? lines.filter(line => prompt.test(line)).map(line => line.replace(prompt, "")) : lines;
  const button = document.createElement("button");
  button.className = "copy";
  button.textContent = "Copy";
  button.dataset.text = typed.join("\n").trimEnd() + "\n";
  button.onclick = () => navigator.clipboard.writeText(button.dataset.text).then(() => { button.textContent = "Copied"; });
  if (prompt) code.innerHTML = code.innerHTML.replace(/^(\$|&gt;&gt;&gt;) .*$/gm, '<span class="prompt">$&</span>');
  code.parentElement.append(button);
});
