"""YAML of common tools, by the command: strings that are filled in, and dollars and templates that stay the tool's.

Longer documents of the same tools are in tests/data/yaml.
"""
import textwrap
from typing import NamedTuple

from tests.subst import Subst, subst


class Row(NamedTuple):
    """A document, the arguments besides --yaml, and the output."""
    name: str
    words: tuple
    source: str
    output: str


VALUES = ('-s', 'APP=shop', '-s', 'PORT=8080', '-s', 'SECRET=p#ss: "x" #1', '-s', 'LINES=first\n- second')
ROWS = (
    Row('a service of Compose', ('--shell',), '''\
        services:
          web:
            image: ${APP}:${TAG:-latest}
            ports: ["${PORT:-80}:80", "${ADMIN:-127.0.0.1}:9000"]
            environment:
              - PASSWORD=$SECRET
              - MODE=${MODE:+debug}
            command: sh -c 'echo "$$HOME"'
            labels: {traefik.rule: "Host(`$APP.example`)"}
        ''', '''\
        services:
          web:
            image: shop:latest
            ports: ["8080:80", "127.0.0.1:9000"]
            environment:
              - "PASSWORD=p#ss: \\"x\\" #1"
              - MODE=
            command: sh -c 'echo "$HOME"'
            labels: {traefik.rule: "Host(`shop.example`)"}
        '''),
    Row('a list and documents of Kubernetes', (), '''\
        apiVersion: v1
        kind: List
        items:
        - kind: Service
          metadata: {name: $APP, labels: {app: "$APP"}}
          spec:
            ports:
            - port: $PORT
        - kind: Secret
          stringData:
            password: $SECRET
        ---
        kind: Pod
        spec:
          containers:
          - args: [--port, "$PORT", $LINES]
        ''', '''\
        apiVersion: v1
        kind: List
        items:
        - kind: Service
          metadata: {name: shop, labels: {app: "shop"}}
          spec:
            ports:
            - port: 8080
        - kind: Secret
          stringData:
            password: "p#ss: \\"x\\" #1"
        ---
        kind: Pod
        spec:
          containers:
          - args: [--port, "8080", "first\\n- second"]
        '''),
    Row('a script in a ConfigMap of Kubernetes', ('--only', 'APP,LINES'), '''\
        kind: ConfigMap
        data:
          run.sh: |
            #!/bin/sh
            for it in "$@"; do echo "$it ${APP} $(hostname)"; done
            cat <<EOF
            $LINES
            EOF
          name: $(POD_NAME) of $APP
        ''', '''\
        kind: ConfigMap
        data:
          run.sh: |
            #!/bin/sh
            for it in "$@"; do echo "$it shop $(hostname)"; done
            cat <<EOF
            first
            - second
            EOF
          name: $(POD_NAME) of shop
        '''),
    Row('a workflow of GitHub', ('--only', 'APP,SECRET'), '''\
        on: {push: {branches: [main]}}
        jobs:
          build:
            runs-on: ${{ matrix.os }}
            env:
              TITLE: $SECRET
            steps:
              - if: ${{ github.ref == 'refs/heads/main' }}
                run: |
                  echo "version=${VERSION#v}" >> "$GITHUB_ENV"
                  docker build -t ${APP} .
              - run: >-
                  ./deploy $APP
                  --token ${{ secrets.TOKEN }}
        ''', '''\
        on: {push: {branches: [main]}}
        jobs:
          build:
            runs-on: ${{ matrix.os }}
            env:
              TITLE: "p#ss: \\"x\\" #1"
            steps:
              - if: ${{ github.ref == 'refs/heads/main' }}
                run: |
                  echo "version=${VERSION#v}" >> "$GITHUB_ENV"
                  docker build -t shop .
              - run: >-
                  ./deploy shop
                  --token ${{ secrets.TOKEN }}
        '''),
    Row('a pipeline of GitLab', ('--only', 'APP,PORT'), '''\
        .deploy: &deploy
          script:
            - docker push "$CI_REGISTRY/$APP:$CI_COMMIT_SHORT_SHA"
            - |
              curl "http://$HOST:$PORT/$$"
          rules:
            - if: $CI_COMMIT_BRANCH == $CI_DEFAULT_BRANCH
        staging:
          <<: *deploy
          environment: {name: staging/$APP, url: "https://$APP.example"}
        ''', '''\
        .deploy: &deploy
          script:
            - docker push "$CI_REGISTRY/shop:$CI_COMMIT_SHORT_SHA"
            - |
              curl "http://$HOST:8080/$$"
          rules:
            - if: $CI_COMMIT_BRANCH == $CI_DEFAULT_BRANCH
        staging:
          <<: *deploy
          environment: {name: staging/shop, url: "https://shop.example"}
        '''),
    Row('a playbook of Ansible', ('--only', 'APP,SECRET'), '''\
        - hosts: all
          vars:
            root: /srv/$APP/{{ release }}
            token: !vault |
              $ANSIBLE_VAULT;1.1;AES256
              6231
          tasks:
            - name: "Copy {{ item }} of $APP"
              ansible.builtin.shell: echo $HOME > "{{ root }}"
              when: item != '$SECRET'
        ''', '''\
        - hosts: all
          vars:
            root: /srv/shop/{{ release }}
            token: !vault |
              $ANSIBLE_VAULT;1.1;AES256
              6231
          tasks:
            - name: "Copy {{ item }} of shop"
              ansible.builtin.shell: echo $HOME > "{{ root }}"
              when: "item != 'p#ss: \\"x\\" #1'"
        '''),
)
# Templates of Helm and Jinja, which make YAML but aren't, each with the line and column of the error.
TEMPLATES = (
    ('replicas: {{ .Values.replicas }}\n', 1, 12),
    ('{{- if .Values.ingress.enabled }}\nkind: Ingress\n{{- end }}\n', 1, 2),
    ('metadata:\n  labels:\n    {{- include "labels" . | nindent 4 }}\n', 3, 6),
    ('- hosts: {{ hosts }}\n', 1, 11),
)
HINTED = "a collection as a key isn't supported; is this a Helm or Jinja template?"


class Schemas(Subst):
    """Documents that are filled in, and templates that are refused."""

    def test_values_are_filled_in(self):
        for row in ROWS:
            with self.subTest(row.name):
                words = ['--yaml', *row.words, *VALUES]
                self.assert_done(words, textwrap.dedent(row.source).encode(), textwrap.dedent(row.output).encode())

    def test_templates_of_other_tools_are_named(self):
        for source, line, column in TEMPLATES:
            with self.subTest(source):
                end = subst(['--yaml', *VALUES], source.encode())
                self.assertEqual((end.status, end.output), (1, b''))
                told = f'<stdin>:{line}:{column}: error: invalid YAML: {HINTED}\n'
                self.assertEqual(end.errors.decode().splitlines(keepends=True)[0], told)
