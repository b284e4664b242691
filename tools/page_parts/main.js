// Puts the parts into their places.
if (data.tables.length) showTables(document.getElementById('tables-place'));
if (data.lines) {
  const near = make('ol', { class: 'lines card near', 'aria-label': 'The line that was chosen, and those round it' });
  near.hidden = true;
  let list = null;
  const lanes = new Lanes(document.getElementById('lanes-place'), line => {
    list.go(line);
    near.replaceChildren(...list.near(line));
    near.hidden = false;
  });
  document.getElementById('lanes-place').append(near);
  list = new JournalList(document.getElementById('journal-place'), lanes);
  showSums(document.getElementById('workers-place'), data.workers, 'Sums by worker', 'worker');
  showSums(document.getElementById('tasks-place'), data.tasks, 'Sums by task', 'task');
  showSums(document.getElementById('topics-place'), data.topics, 'Topics', 'topic');
}
document.documentElement.dataset.ready = 'yes';
