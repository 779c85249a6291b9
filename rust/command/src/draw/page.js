const all = selector => [...document.querySelectorAll(selector)];
// the mouse, or the focus, lights what belongs together, and brings its row into sight
for (const type of ['mouseover', 'focusin']) document.addEventListener(type, event => {
  const from = event.target.closest('[data-key]');
  all('.lit').forEach(node => node.classList.remove('lit'));
  document.body.classList.toggle('lighting', !!from);
  if (!from) return;
  all('[data-lit~="' + from.dataset.key + '"]').forEach(node => node.classList.add('lit'));
  const row = document.querySelector('tr[data-key="' + from.dataset.key + '"]');
  if (row && !from.closest('tr')) row.scrollIntoView({block: 'nearest'});
});
// the slider, or the arrow keys, go through the steps of the plan; at 0 stands the whole
const slider = document.querySelector('#steps input');
const show = number => {
  const step = STEPS[number - 1];
  slider.value = number;
  const words = step ? step.words : 'the whole: arrow keys go through the steps';
  document.querySelector('#steps output').textContent = words;
  document.body.classList.toggle('stepping', !!step);
  for (const node of all('svg [data-key]')) {
    for (const name of ['built', 'part0', 'part1', 'part2', 'joint']) {
      node.classList.toggle(name, !!step && step[name].includes(node.dataset.key));
    }
  }
};
if (slider) {
  slider.addEventListener('input', () => show(+slider.value));
  document.addEventListener('keydown', event => {
    const by = {ArrowRight: 1, ArrowLeft: -1, Home: -STEPS.length, End: STEPS.length}[event.key];
    if (!by || event.ctrlKey || event.altKey || event.metaKey) return;
    event.preventDefault();
    show(Math.max(0, Math.min(STEPS.length, +slider.value + by)));
  });
  show(0);
}
