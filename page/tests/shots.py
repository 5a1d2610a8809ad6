"""The pictures of the README: shots.py HOST FOLDER"""
import os, sys
folder = sys.argv[2]
sys.argv = sys.argv[:2]
from browser_test import *

for name, width, height, scheme in [('page', 1280, 800, 'light'), ('phone', 390, 844, 'light'), ('dark', 1280, 800, 'dark')]:
    view(width, height, scheme)
    load()
    step(10)
    if name == 'phone':
        js("document.getElementById('steps').scrollIntoView()")
    time.sleep(.3)
    d.save_screenshot(os.path.join(folder, name + '.png'))
    print(f'{folder}/{name}.png')
d.quit()
ask.stop()
host.stop()
